//! The link's step table as the archive answers it, in text: every event at a link of every state, every control octet,
//! each way of not being well formed, each refusal with too small a reply buffer. It is stored in tables/dlc.txt.
mod rows;

use super::super::tally::Tally;
use super::call::{compare, compare_fresh, view, Event, Given, Place};
use super::worked::worked_runs;
use crate::archive::link::Link;
use rows::{events, links, odd_links, packet, second_links, ASKED, STATES};
use second::link::{PAYLOAD, REPLY};
use second::rng::Rng;

const HEADING: &str = "\
The DLC link's step table as the archive of proved code answers it: written by `second/run --bless`, compared by every
second/run. Events stand in the order of the step table's rows, below each the links in the order of its columns. A line says
the number answered; the link afterwards, where the event is no refusal; what goes up; the packets sent. A refusal leaves the
link as it was, and the reply buffer. The oldest number is that of the oldest payload, or the next to be given. Links are of
edition 1 where nothing else is said.
";

pub const NAME: &str = "dlc.txt";

/// At most eight octets, and dots where there are more.
fn octets(octets: &[u8]) -> String {
    let shown: Vec<_> = octets.iter().take(8).map(|x| format!("{x:02X}")).collect();
    let dots = if octets.len() > 8 { " .." } else { "" };
    format!("{}{dots}", shown.join(" "))
}

/// State, queue, numbers and edition of a link.
fn link_text(link: &Link) -> String {
    let state = STATES.get(usize::from(link.state)).unwrap_or(&"no state");
    let (queued, oldest, awaited) = (link.queue.count, link.base, link.expected);
    let edition = link.edition;
    format!("{state}, queued {queued}, oldest {oldest}, awaited {awaited}, edition {edition}")
}

/// What the archive gave back: a number alone where the link is as it was and nothing goes up or out.
fn outcome(before: &Link, event: &Event, given: &Given) -> String {
    let answer = &given.archive.answer;
    let mut text = answer.number.to_string();
    if given.archive.link != *before || answer.number == 0 || answer.number == 25 {
        text += &format!("  {}", link_text(&given.archive.link));
    }
    if answer.upper_reset != 0 {
        text += "; upper layer reset";
    }
    if let (true, Event::Arrival(packet)) = (answer.delivered != 0, event) {
        text += &format!("; up [{}]", octets(packet.get(1..).unwrap_or_default()));
    }
    if answer.sent > 0 {
        let packets: Vec<_> = given.packets.iter().map(|p| octets(p)).collect();
        text += &format!("; sent {}", packets.join(" / "));
    }
    text
}

/// The table's text as it grows.
struct Table<'a> {
    rng: &'a Rng,
    tally: &'a mut Tally,
    text: String,
}

impl Table<'_> {
    fn line(&mut self, line: &str) {
        self.text += line.trim_end();
        self.text.push('\n');
    }

    fn call(&mut self, link: &Link, event: &Event, room: usize) -> Given {
        let place = Place {
            archive: link,
            second: view(link),
            room,
            seed: self.rng.octet(),
        };
        compare(place, event, self.tally)
    }

    fn number(&mut self, link: &Link, event: &Event, room: usize) -> u8 {
        self.call(link, event, room).archive.answer.number
    }

    /// Fresh links, by the number that they are asked for with.
    fn makers(&mut self) {
        self.line("\nFresh links:");
        for edition in ASKED {
            let (outcome, _) = compare_fresh(edition, self.tally);
            let (number, link) = (outcome.answer.number, link_text(&outcome.link));
            let name = format!("edition {edition}");
            self.line(&format!("  {name:<14} {number}  {link}"));
        }
    }

    fn named_links(&mut self, edition: u8) {
        for (name, link) in links(edition) {
            self.line(&format!("  {name:<14} {}", link_text(&link)));
        }
    }

    /// Each event, with what it leads to at each link of an edition.
    fn steps(&mut self, edition: u8) -> Vec<(String, Vec<String>)> {
        let each = |(name, event): (String, Event)| {
            let rows = links(edition).into_iter().map(|(link_name, link)| {
                let given = self.call(&link, &event, REPLY);
                format!("  {link_name:<14} {}", outcome(&link, &event, &given))
            });
            (name, rows.collect())
        };
        events(edition).into_iter().map(each).collect()
    }

    fn all_steps(&mut self) {
        self.line("\nThe links:");
        self.named_links(1);
        let (first, second) = (self.steps(1), self.steps(2));
        first.iter().for_each(|step| self.block(step));
        self.line("\n\nEdition 2: RESET, and every event that does not come to the same as above.\n\nThe links:");
        self.named_links(2);
        for (first, second) in first.iter().zip(&second) {
            let same: Vec<_> = first.1.iter().map(|row| as_edition_2(row)).collect();
            if first.0 != second.0 || same != second.1 || first.0 == "RESET" {
                self.block(second);
            }
        }
    }

    /// A name, and the rows below it.
    fn block(&mut self, (name, rows): &(String, Vec<String>)) {
        self.line(&format!("\n{name}"));
        rows.iter().for_each(|row| self.line(row));
    }

    /// The numbers of all packets of some lengths by their control octet, a line a high nibble; equal lines are one. Of edition 2
    /// where they are others than those of edition 1.
    fn controls(&mut self) {
        self.line("\n\nPackets by their control octet: numbers for low nibbles 0 to F, or one where all are the same. Of edition 2 what is not the same as of edition 1");
        for (first, second) in links(1).into_iter().zip(second_links()) {
            for length in [1, 2, PAYLOAD + 1, PAYLOAD + 2] {
                let [rows, others] =
                    [&first.1, &second.1].map(|link| self.control_rows(link, length));
                self.line(&format!("\n{}, packets of {length}", first.0));
                self.equal_rows_as_one(&rows);
                if rows != others {
                    self.line(&format!("\n{}, packets of {length}", second.0));
                    self.equal_rows_as_one(&others);
                }
            }
        }
    }

    fn control_rows(&mut self, link: &Link, length: usize) -> Vec<String> {
        (0..16)
            .map(|high| self.control_row(link, high, length))
            .collect()
    }

    fn equal_rows_as_one(&mut self, rows: &[String]) {
        let mut first = 0;
        while first < rows.len() {
            let row = &rows[first];
            let last = first + rows[first..].iter().take_while(|r| *r == row).count() - 1;
            let name = match last {
                _ if last == first => format!("{first:X}x"),
                _ => format!("{first:X}x to {last:X}x"),
            };
            self.line(&format!("  {name:<9} {row}"));
            first = last + 1;
        }
    }

    fn control_row(&mut self, link: &Link, high: u8, length: usize) -> String {
        let numbers =
            (0..16).map(|low| self.number(link, &packet(high << 4, low, length - 1), REPLY));
        in_one_line(&numbers.collect::<Vec<u8>>())
    }

    /// The numbers of all events at each link and at each odd one, with a reply buffer of so many octets.
    fn numbers(&mut self, room: usize) {
        self.line(&format!(
            "\n\nThe events above in order, numbers alone, with a reply buffer of {room} octets\n"
        ));
        let links = links(1).into_iter().chain(second_links());
        for (name, link) in links.chain(odd_links()) {
            let numbers: Vec<u8> = events(1)
                .iter()
                .map(|(_, event)| self.number(&link, event, room))
                .collect();
            self.line(&format!("  {name:<36} {}", in_one_line(&numbers)));
        }
    }
}

/// The whole text, by the archive's answers; the second program is asked beside it.
pub fn text(rng: &Rng, tally: &mut Tally) -> String {
    let mut table = Table {
        rng,
        tally,
        text: HEADING.to_string(),
    };
    table.makers();
    table.all_steps();
    table.controls();
    table.numbers(REPLY);
    table.numbers(REPLY - 1);
    let text = table.text;
    text + &worked_runs(rng, tally)
}

/// A row of edition 1 as it would be of edition 2, if nothing else were different.
fn as_edition_2(row: &str) -> String {
    row.replace("edition 1", "edition 2")
}

/// Numbers in a line, or one where all are the same.
fn in_one_line(numbers: &[u8]) -> String {
    match numbers {
        [first, rest @ ..] if rest.iter().all(|x| x == first) => format!("{first:>2}"),
        _ => {
            let each: Vec<_> = numbers.iter().map(|x| format!("{x:>2}")).collect();
            each.join(" ")
        }
    }
}
