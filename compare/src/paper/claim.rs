//! A claim, "every C is D" of two literals C and D. The description's root is not used.

use super::description::Description;
use super::evidence::{self, Head};
use super::label::{opposite, Label, Literal};
use super::{weigh, Answer, Refusal};

/// The answer to a claim whose second piece may be empty.
pub fn judge(
    description: &[u8],
    claim: [Literal; 2],
    first: &[u8],
    second: &[u8],
) -> Result<Answer, Refusal> {
    let description = Description::read(description)?;
    // 24, right after 8 and 26: C or D past the table.
    if !claim.iter().all(|&l| description.in_table(l)) {
        return Err(Refusal::whole(24));
    }
    // 9 on both pieces; an empty second piece is not tested.
    let first = evidence::head(first)?;
    let second = match second {
        [] => None,
        second => Some(evidence::head(second)?),
    };
    by_kinds(&description, claim, &first, second.as_ref())
}

/// What is sought shows in the kinds of the pieces, in the order given. The first piece is
/// judged whole before the second.
fn by_kinds(
    description: &Description,
    [c, d]: [Literal; 2],
    first: &Head,
    second: Option<&Head>,
) -> Result<Answer, Refusal> {
    let subject = Label::of(&[c]);
    let exception = Label::of(&[c, opposite(d)]);
    match (first, second) {
        // No exception, and something that the claim is about.
        (Head::List(_), Some(graph @ Head::Graph(_))) => {
            weigh(description, exception, first)?;
            weigh(description, subject, graph)?;
            Ok(Answer::Holds)
        }
        (Head::Graph(_), None) => {
            weigh(description, exception, first)?;
            Ok(Answer::Fails)
        }
        (Head::List(_), None) => {
            weigh(description, subject, first)?;
            Ok(Answer::HoldsOfNothing)
        }
        // 24, right after 9: kinds that fit none of the three.
        _ => Err(Refusal::whole(24)),
    }
}
