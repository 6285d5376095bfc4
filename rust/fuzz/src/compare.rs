//! Every call on one input, both benches, in both profiles.

use cases::{cost, renumber};
use hollyspool::{Answer, Profile, MOST_MODEL};
use second::book::Book;
use second::model::Model;
use second::profile::Profile as Second;

use crate::guarded::Guarded;
use crate::input::{Input, Text};
use crate::round_trip::{round_trip, Reading};
use crate::tally::{Call, Tally};

/// Each profile, as both benches have it.
const PROFILES: [(Profile, Second); 2] = [
    (Profile::Strong, Second::Strong),
    (Profile::Ordinary, Second::Ordinary),
];

/// What was answered in a profile.
#[derive(Debug, PartialEq, Eq)]
struct Answers {
    judged: Answer,
    assigned: Answer,
    searched: Answer,
    /// The model that a search found.
    found: Option<Vec<u8>>,
}

/// Makes all calls, or says what differs.
pub fn all(input: &Input, tally: &mut Tally) -> Result<(), String> {
    let book = &input.book;
    let (proved, second) = (hollyspool::read(book), second::book::read(book));
    same(tally, Call::Read, proved, second)?;
    body(book, input.entry)?;
    let [strong, ordinary] = PROFILES;
    let strong = in_profile(input, strong, tally)?;
    let ordinary = in_profile(input, ordinary, tally)?;
    alike(book, &strong, &ordinary, tally)?;
    export(input, tally)?;
    if let Ok(accepted) = Book::accept(book) {
        let models = models(input, &accepted, [strong.found, ordinary.found]);
        renumbered(input, &accepted, &models, tally)?;
        read_back(input, &accepted, &models, tally)?;
    }
    import(&input.text, tally)
}

/// Makes the calls that a profile matters to.
fn in_profile(
    input: &Input,
    profiles: (Profile, Second),
    tally: &mut Tally,
) -> Result<Answers, String> {
    let (book, (profile, other)) = (&input.book, profiles);
    let judged = hollyspool::judge_in(profile, book, &input.model);
    let second = second::judge::judge_in(other, book, &input.model);
    same(tally, Call::Judge(profile), judged, second)?;
    let assigned = hollyspool::assign_in(profile, book, &input.assignment);
    let second = second::assign::assign_in(other, book, &input.assignment);
    same(tally, Call::Assign(profile), assigned, second)?;
    let (searched, found) = search(input, profiles, tally)?;
    encode(input, profiles, tally)?;
    Ok(Answers {
        judged,
        assigned,
        searched,
        found,
    })
}

/// Where an accepted book has no operator 8, both profiles answer the same.
fn alike(
    book: &[u8],
    strong: &Answers,
    ordinary: &Answers,
    tally: &mut Tally,
) -> Result<(), String> {
    let negated = Book::accept(book).is_ok_and(|book| book.nodes.iter().any(|node| node[0] == 8));
    match strong == ordinary {
        true => tally.alike[usize::from(negated)] += 1,
        false if negated => tally.apart += 1,
        false => {
            return Err(format!(
            "without operator 8 the strong profile gives {strong:?}, the ordinary one {ordinary:?}"
        ))
        }
    }
    Ok(())
}

/// Compares two answers, and counts them if they are the same.
fn same(
    tally: &mut Tally,
    call: Call,
    proved: Answer,
    second: second::answer::Answer,
) -> Result<(), String> {
    let one = [proved.number, proved.place, proved.tried];
    let other = [second.number, second.place, second.tried];
    if one != other {
        return Err(format!(
            "{call:?} gives {one:?}, the second bench {other:?}"
        ));
    }
    tally.count(call, proved.number);
    Ok(())
}

/// The search, and the model that it finds; the judge accepts it.
fn search(
    input: &Input,
    (profile, other): (Profile, Second),
    tally: &mut Tally,
) -> Result<(Answer, Option<Vec<u8>>), String> {
    let (book, call) = (&input.book, Call::Search(profile));
    let [mut proved, mut second] = [(); 2].map(|()| Guarded::new(input.model_room));
    let found = hollyspool::search_in(profile, book, input.budget, proved.out());
    let expected = second::search::search_in(other, book, input.budget, second.out());
    same(tally, call, found, expected)?;
    let length = Book::accept(book).map_or(0, |book| book.bounds.v + book.bounds.n);
    outputs(call, found, length, &mut proved, &mut second)?;
    if found.number != 0 {
        return Ok((found, None));
    }
    let model = proved.out()[..length].to_vec();
    let judged = hollyspool::judge_in(profile, book, &model);
    let fits = second::answer::Answer::yes_or_no(true);
    same(tally, Call::Judge(profile), judged, fits)?;
    Ok((found, Some(model)))
}

fn encode(
    input: &Input,
    (profile, other): (Profile, Second),
    tally: &mut Tally,
) -> Result<(), String> {
    let (book, call) = (&input.book, Call::Encode(profile));
    let [mut proved, mut second] = [(); 2].map(|()| Guarded::new(input.encoding_room));
    let encoded = hollyspool::encode_in(profile, book, proved.out());
    let expected = second::encode::encode_in(other, book, second.out());
    same(tally, call, encoded, expected)?;
    let length = stated(second.out());
    outputs(call, encoded, length, &mut proved, &mut second)
}

fn export(input: &Input, tally: &mut Tally) -> Result<(), String> {
    let book = &input.book;
    let [mut proved, mut second] = [(); 2].map(|()| Guarded::new(input.text_room));
    let exported = hollyspool::export(book, proved.out());
    let expected = second::write::export(book, second.out());
    same(tally, Call::Export, exported, expected)?;
    let length = Book::accept(book).map_or(0, |book| second::write::text(&book).len());
    outputs(Call::Export, exported, length, &mut proved, &mut second)
}

/// The models in range of an accepted book, each with a profile: the input's own in both, and the one
/// that a search found there.
fn models(input: &Input, book: &Book, found: [Option<Vec<u8>>; 2]) -> Vec<(Profile, Vec<u8>)> {
    let given = Model::accept(book.bounds, &input.model).map(|_| input.model.clone());
    let mut models = Vec::new();
    for (profile, found) in Profile::ALL.into_iter().zip(found) {
        let here = given.iter().cloned().chain(found);
        models.extend(here.map(|model| (profile, model)));
    }
    models
}

/// A model and the same model renumbered are judged alike.
fn renumbered(
    input: &Input,
    book: &Book,
    models: &[(Profile, Vec<u8>)],
    tally: &mut Tally,
) -> Result<(), String> {
    for (profile, model) in models {
        let other = renumber::renumbered(book.bounds.v, model, &input.renumbering);
        let [one, another] =
            [model, &other].map(|model| hollyspool::judge_in(*profile, &input.book, model));
        if one != another {
            return Err(format!(
                "on {model:?} it gives {one:?}, and on {other:?} {another:?}, in {profile:?}"
            ));
        }
        tally.renumbered[usize::from(one.number == 0)] += u64::from(*model != other);
    }
    Ok(())
}

/// The book of an accepted book's text holds on the same models.
fn read_back(
    input: &Input,
    book: &Book,
    models: &[(Profile, Vec<u8>)],
    tally: &mut Tally,
) -> Result<(), String> {
    let sizes = cost::sizes(book.bounds.v, models.iter().map(|(_, model)| model));
    let back = match round_trip(book, &input.book, sizes)? {
        Reading::Whole(back) => back,
        Reading::NotCompared => {
            tally.read_back += 1;
            return Ok(());
        }
        Reading::Refused => {
            tally.not_read_back += 1;
            return Ok(());
        }
    };
    tally.read_back += 1;
    for (profile, model) in models {
        let fits = back.fits(*profile, &input.book, model)?;
        tally.matched[usize::from(fits)] += 1;
    }
    Ok(())
}

/// The import, at times of every beginning of the text as well.
fn import(text: &Text, tally: &mut Tally) -> Result<(), String> {
    let first = if text.cut { 0 } else { text.bytes.len() };
    (first..=text.bytes.len()).try_for_each(|length| import_cut(text, length, tally))
}

/// The import of a text's beginning; and what it writes is a book, which names its variables.
fn import_cut(text: &Text, length: usize, tally: &mut Tally) -> Result<(), String> {
    let &Text { n, p, room, .. } = text;
    let cut = &text.bytes[..length];
    let [mut proved, mut second] = [(); 2].map(|()| Guarded::new(room));
    let imported = hollyspool::import(cut, n, p, proved.out());
    let expected = second::import::import(cut, n, p, second.out());
    let of_length = |what: String| format!("{what}, cut at {length}");
    same(tally, Call::Import, imported, expected).map_err(of_length)?;
    let length = stated(second.out());
    outputs(Call::Import, imported, length, &mut proved, &mut second).map_err(of_length)?;
    if imported.number == 0 {
        let searched = hollyspool::search(&proved.out()[..length], 0, &mut [0; MOST_MODEL]);
        if searched.number != 2 {
            return Err(of_length(format!("the imported book gives {searched:?}")));
        }
    }
    Ok(())
}

/// The length that a book's own contents give.
fn stated(book: &[u8]) -> usize {
    match *book {
        [_, _, _, _, _, _, _, _, _, low, high, ..] => {
            14 + usize::from(low) + 256 * usize::from(high)
        }
        _ => 0,
    }
}

/// The body is the same stretch of the caller's bytes: where it starts counts, even of an empty one.
fn body(book: &[u8], entry: u64) -> Result<(), String> {
    let proved = hollyspool::body(book, entry).as_ptr_range();
    let second = book[second::book::body(book, entry)].as_ptr_range();
    if proved == second {
        Ok(())
    } else {
        Err(format!("the body of entry {entry} is another stretch"))
    }
}

/// The outputs are the same, and unchanged beyond the `length` bytes that number 0 writes.
fn outputs(
    call: Call,
    answer: Answer,
    length: usize,
    proved: &mut Guarded,
    second: &mut Guarded,
) -> Result<(), String> {
    let written = if answer.number == 0 { length } else { 0 };
    if !proved.unchanged_beyond(written) {
        return Err(format!(
            "{call:?} changes bytes beyond the {written} it writes"
        ));
    }
    if proved.out() != second.out() {
        return Err(format!("{call:?} writes other bytes than the second bench"));
    }
    Ok(())
}
