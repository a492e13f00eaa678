//! Answers for programs: a line for each question, with tabs between its fields.
//!
//! There are six, and always all of them: the line of the question, its kind, whether
//! the answer is yes, no or refused, two numbers, and the question. Where there is no
//! such number, or no such kind, a lone `-` stands. Numbers have digits alone. The
//! question is printed as names are, so it has neither tabs nor line ends.
//!
//! Where it is told how far questions looked, there are two more behind these, also
//! always: how many nodes were visited, and how many entries were read. Where the
//! question is refused, both are 0.

use super::question::{self, Question};
use crate::outcome::Status;
use crate::text::shown;
use mistrogu::counted::Looked;
use mistrogu::Reply;

/// What stands where there is nothing.
const NOTHING: &str = "-";

/// The line of a question and its reply, or of one that was refused.
pub fn of_question(
    number: usize,
    question: &Question,
    reply: Option<&Reply>,
    looked: Option<Looked>,
) -> String {
    let verdict = match reply.map(question::status) {
        None => "refused",
        Some(Status::Done) => "yes",
        Some(_) => "no",
    };
    let numbers = reply.map_or([None, None], numbers);
    let kind = question.kind.name();
    let fields = six(number, kind, verdict, numbers, &question.text);
    line(fields, looked)
}

/// The line of what is no question: it is refused, and has no kind.
pub fn of_other(number: usize, text: &[u8], looked: Option<Looked>) -> String {
    line(six(number, NOTHING, "refused", [None, None], text), looked)
}

/// The two numbers of a reply.
fn numbers(reply: &Reply) -> [Option<usize>; 2] {
    match reply {
        Reply::Exact(position) => [*position, None],
        Reply::Place(place) => [Some(*place), None],
        Reply::Range(range) => [Some(range.start), Some(range.len())],
        Reply::Nearest(nearest) => [Some(nearest.position), Some(nearest.lit)],
        Reply::Width(width) => [Some(*width), None],
    }
}

/// The fields that are always there.
fn six(
    number: usize,
    kind: &str,
    verdict: &str,
    numbers: [Option<usize>; 2],
    text: &[u8],
) -> String {
    let in_digits = |number: Option<usize>| number.map(|number| number.to_string());
    let [first, second] =
        numbers.map(|number| in_digits(number).unwrap_or_else(|| NOTHING.to_string()));
    let text = shown(text);
    format!("{number}\t{kind}\t{verdict}\t{first}\t{second}\t{text}")
}

/// A line of these fields, and of the two more where it is told how far was looked.
fn line(fields: String, looked: Option<Looked>) -> String {
    match looked {
        None => format!("{fields}\n"),
        Some(Looked { visits, entries }) => format!("{fields}\t{visits}\t{entries}\n"),
    }
}

#[cfg(test)]
mod tests {
    use super::*;
    use mistrogu::{Kind, Nearest};

    /// The line of a question in line 1,234.
    fn told(kind: Kind, text: &str, reply: Option<Reply>) -> String {
        let text = text.as_bytes().to_vec();
        of_question(1_234, &Question { kind, text }, reply.as_ref(), None)
    }

    #[test]
    fn each_kind_has_its_numbers() {
        let near = Nearest {
            position: 1_999,
            lit: 3,
        };
        let rows = [
            (
                Kind::Exact,
                Reply::Exact(Some(1_000)),
                "exact\tyes\t1000\t-",
            ),
            (Kind::Exact, Reply::Exact(None), "exact\tno\t-\t-"),
            (Kind::Place, Reply::Place(0), "place\tyes\t0\t-"),
            (Kind::Range, Reply::Range(4..9), "range\tyes\t4\t5"),
            (Kind::Range, Reply::Range(4..4), "range\tno\t4\t0"),
            (Kind::Nearest, Reply::Nearest(near), "nearest\tyes\t1999\t3"),
            (Kind::Width, Reply::Width(13), "width\tyes\t13\t-"),
            (Kind::Width, Reply::Width(0), "width\tno\t0\t-"),
        ];
        for (kind, reply, fields) in rows {
            assert_eq!(
                told(kind, "Mar", Some(reply)),
                format!("1234\t{fields}\tMar\n")
            );
        }
    }

    #[test]
    fn every_line_has_six_fields() {
        assert_eq!(
            told(Kind::Place, "a\tb\n", None),
            "1234\tplace\trefused\t-\t-\ta\\09b\\0A\n"
        );
        assert_eq!(
            told(Kind::Place, "", Some(Reply::Place(2))),
            "1234\tplace\tyes\t2\t-\t\n"
        );
        let other = of_other(7, b"find Mar", None);
        assert_eq!(other, "7\t-\trefused\t-\t-\tfind Mar\n");
    }

    #[test]
    fn how_far_was_looked_are_two_fields_more() {
        let far = |visits, entries| Some(Looked { visits, entries });
        let question = Question {
            kind: Kind::Place,
            text: b"Mar".to_vec(),
        };
        let told = of_question(7, &question, Some(&Reply::Place(2)), far(1_200, 16));
        assert_eq!(told, "7\tplace\tyes\t2\t-\tMar\t1200\t16\n");
        let told = of_question(7, &question, None, far(0, 0));
        assert_eq!(told, "7\tplace\trefused\t-\t-\tMar\t0\t0\n");
        let told = of_other(7, b"find Mar", far(0, 0));
        assert_eq!(told, "7\t-\trefused\t-\t-\tfind Mar\t0\t0\n");
    }
}
