//! Random calls of the five questions.

use crate::agreeing;
use crate::books::any_book;
use crate::lent::{hex, lend};
use fenced::{on_stack, Fenced};
use mistrogu::STACK;
use vectors::lists::Names;
use vectors::questions::any_question;
use vectors::random::Random;
use vectors::spelling::respelt;

/// Makes one call of `book_exact` of both programs: the code they agree on, or
/// the whole case.
pub fn exact(random: &mut Random) -> Result<usize, String> {
    run(random, model::book_exact, proved::book_exact)
}

/// The same of `book_place`.
pub fn place(random: &mut Random) -> Result<usize, String> {
    run(random, model::book_place, proved::book_place)
}

/// The same of `book_range`.
pub fn range(random: &mut Random) -> Result<usize, String> {
    run(random, model::book_range, proved::book_range)
}

/// The same of `book_nearest`.
pub fn nearest(random: &mut Random) -> Result<usize, String> {
    run(random, model::book_nearest, proved::book_nearest)
}

/// The same of `book_width`.
pub fn width(random: &mut Random) -> Result<usize, String> {
    run(random, model::book_width, proved::book_width)
}

/// A call that asks a question of a book.
type Ask<Counted> = fn(&[u8], &[u8]) -> Counted;

/// Asks a question near the book's names of both programs.
fn run(
    random: &mut Random,
    model: Ask<model::Counted>,
    proved: Ask<proved::Counted>,
) -> Result<usize, String> {
    let (book, names) = any_book(random);
    let question = any_lent_question(random, &names);
    let expected = model(&book, &question);
    let found = on_stack(STACK, || proved(&book, &question));
    agreeing::on_counted(expected, found).map_err(|answers| {
        let (question, book) = (hex(&question), hex(&book));
        format!("question {question}\nbook {book}\n{answers}")
    })
}

/// A question near these names, in any spelling, to be lent.
pub fn any_lent_question(random: &mut Random, names: &Names) -> Fenced<u8> {
    let question = any_question(random, names);
    let mut question = respelt(random, &question);
    if random.once_in(200) {
        // A length of which the low 16 bits alone would be fine.
        question.resize(random.between(65_530, 65_750), b'a');
    }
    lend(random, &question)
}

#[cfg(test)]
mod tests {
    use super::*;
    use model::names::shared_symbols;
    use model::BookKind;

    #[test]
    fn nearest_is_often_asked_what_parts_from_all_names_inside_a_letter() {
        let mut random = Random::from_seed(1);
        let (mut asked, mut inside) = (0, 0);
        while asked < 2000 {
            let (book, names) = any_book(&mut random);
            let question = any_question(&mut random, &names);
            let answer = model::book_nearest(&book, &question);
            if answer.code == 0 {
                let kind = BookKind::of_marked(&book).expect("an accepted book");
                let of_name = |name: &Vec<u8>| shared_symbols(kind.rule(), name, &question);
                let shared = names.iter().map(of_name);
                asked += 1;
                inside += usize::from(Some(answer.second) < shared.max());
            }
        }
        assert!(inside > asked / 10, "{inside} of {asked}");
    }
}
