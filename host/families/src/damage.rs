//! Damage: ways to spoil a good catalogue or sheet text, each from a source of numbers.

use crate::page::{Page, hex_byte, line_of, set_word, word};
use crate::rng::Rng;
use second::frames::{self, TEXT_LIMIT};

/// One way to spoil a text.
///
/// Some ways cannot spoil every text; what comes out may then be a good text
/// still, and nobody should count on its being refused.
#[derive(Clone, Copy, Debug, PartialEq, Eq, Hash)]
pub enum Damage {
    /// One to three bits are flipped anywhere.
    BitFlips,
    /// The text is cut off anywhere.
    Cut,
    /// The text is cut off after some line.
    CutLines,
    /// A line stands twice.
    DoubledLine,
    /// Two lines have changed places.
    SwappedLines,
    /// A line is missing.
    DroppedLine,
    /// A line stands elsewhere.
    MovedLine,
    /// The check of a frame is wrong.
    WrongSum,
    /// A byte of a frame is changed and the check is right again.
    MendedField,
    /// A letter, or every letter of a line, is in lower case.
    LowerCase,
    /// A line ends with CR LF.
    CarriageReturn,
    /// A blank stands somewhere.
    Blank,
    /// A byte that is no digit stands in place of one.
    StrangeByte,
    /// An empty line stands somewhere.
    EmptyLine,
    /// A line has a digit too few or too many.
    OddDigits,
    /// A line has fewer than four digits.
    StubLine,
    /// A frame is shorter by a byte or more and its check is right.
    ShortLine,
    /// A frame is longer by up to a thousand bytes; its check is mostly right.
    OverlongLine,
    /// Good lines follow the end.
    LinesAfterEnd,
    /// Faulty lines follow the end.
    FaultAfterEnd,
    /// Bytes follow the last LF.
    BytesAfterEnd,
    /// The text is filled up to exactly 32,768 bytes.
    AtLimit,
    /// The text is filled up to exactly 32,769 bytes.
    OverLimit,
    /// A frame has another kind of the same text and its check is right.
    WrongKind,
    /// A frame has a kind of another text, or of none, and its check is right.
    StrangeKind,
    /// M is 0, above 32, or another number than it was.
    HeadValue,
    /// A frame names a module that is not below M, or is M - 1.
    HighModule,
    /// A byte of a version frame's version is 255.
    HighVersion,
    /// The low version of a range is its upper end, or above it, or one below it.
    TurnedRange,
    /// A caret need has major 255 or 254.
    HighCaret,
    /// A need names the module it belongs to.
    OwnNeed,
    /// A module gets up to 17 versions more.
    ManyVersions,
    /// A version gets 16 or 17 needs more.
    ManyNeeds,
    /// Versions get needs until there are 1,024 or 1,025, or all have 16.
    ManyNeedsInAll,
    /// The root has no version or two.
    RootVersions,
    /// The count in a sheet's head is one off.
    CountOff,
    /// The count in a sheet's head is 0, 480, 481 or any number.
    CountValue,
    /// A need line names another need or one that does not exist.
    OtherNeed,
    /// A resolved line cites itself, a later line or another earlier line.
    OtherCitation,
    /// A resolved line names another module or one that does not exist.
    OtherModule,
    /// The last lines are missing and the count is right, so that the sheet is well formed.
    ShorterSheet,
    /// Good lines are added and the count is right, so that the sheet is well formed.
    LongerSheet,
}

impl Damage {
    /// The ways that suit both texts.
    pub const COMMON: [Damage; 25] = [
        Damage::BitFlips,
        Damage::Cut,
        Damage::CutLines,
        Damage::DoubledLine,
        Damage::SwappedLines,
        Damage::DroppedLine,
        Damage::MovedLine,
        Damage::WrongSum,
        Damage::MendedField,
        Damage::LowerCase,
        Damage::CarriageReturn,
        Damage::Blank,
        Damage::StrangeByte,
        Damage::EmptyLine,
        Damage::OddDigits,
        Damage::StubLine,
        Damage::ShortLine,
        Damage::OverlongLine,
        Damage::LinesAfterEnd,
        Damage::FaultAfterEnd,
        Damage::BytesAfterEnd,
        Damage::AtLimit,
        Damage::OverLimit,
        Damage::WrongKind,
        Damage::StrangeKind,
    ];

    /// The ways that suit a catalogue only.
    pub const CATALOGUE: [Damage; 10] = [
        Damage::HeadValue,
        Damage::HighModule,
        Damage::HighVersion,
        Damage::TurnedRange,
        Damage::HighCaret,
        Damage::OwnNeed,
        Damage::ManyVersions,
        Damage::ManyNeeds,
        Damage::ManyNeedsInAll,
        Damage::RootVersions,
    ];

    /// The ways that suit a sheet only.
    pub const SHEET: [Damage; 7] = [
        Damage::CountOff,
        Damage::CountValue,
        Damage::OtherNeed,
        Damage::OtherCitation,
        Damage::OtherModule,
        Damage::ShorterSheet,
        Damage::LongerSheet,
    ];

    /// The text spoilt in this way.
    pub fn spoil(self, text: &[u8], rng: &mut Rng) -> Vec<u8> {
        let mut page = Page::of(text);
        match self {
            Damage::BitFlips => return flip_bits(text, rng),
            Damage::Cut => return text[..rng.below(text.len())].to_vec(),
            Damage::CutLines => page.lines.truncate(rng.below(page.lines.len())),
            Damage::DoubledLine => page.double(rng),
            Damage::SwappedLines => page.swap(rng),
            Damage::DroppedLine => drop(page.take(rng)),
            Damage::MovedLine => page.shift(rng),
            Damage::WrongSum => page.edit_line(rng, |line, rng| {
                let at = line.len().saturating_sub(2);
                line.splice(at.., hex_byte(rng.byte()));
            }),
            Damage::MendedField => page.edit_frame(rng, |frame, rng| change_field(frame, rng)),
            Damage::LowerCase => page.edit_line(rng, |line, rng| lower_case(line, rng)),
            Damage::CarriageReturn => page.edit_line(rng, |line, _| line.push(b'\r')),
            Damage::Blank => page.edit_line(rng, |line, rng| {
                line.insert(rng.below(line.len() + 1), b' ');
            }),
            Damage::StrangeByte => page.edit_line(rng, |line, rng| strange_byte(line, rng)),
            Damage::EmptyLine => page.insert(rng, Vec::new()),
            Damage::OddDigits => page.edit_line(rng, odd_digits),
            Damage::StubLine => {
                let stubs: [&[u8]; 6] = [b"0", b"00", b"000", b"04F", b"FF", b"F"];
                let stub = rng.one_of(&stubs).unwrap_or(&stubs[0]).to_vec();
                page.insert(rng, stub);
            }
            Damage::ShortLine => page.edit_frame(rng, |frame, rng| {
                frame.truncate(rng.between(1, frame.len().saturating_sub(1).max(1)));
            }),
            Damage::OverlongLine => page.lengthen(rng),
            Damage::LinesAfterEnd => page.append_good(rng),
            Damage::FaultAfterEnd => page.append_faulty(rng),
            Damage::BytesAfterEnd => {
                let tails: [&[u8]; 6] = [b"0", b"04FC", b" ", b"\r", b"\0", b"0103FC04"];
                page.tail = rng.one_of(&tails).unwrap_or(&tails[0]).to_vec();
            }
            Damage::AtLimit => page.fill(rng, TEXT_LIMIT),
            Damage::OverLimit => page.fill(rng, TEXT_LIMIT + 1),
            Damage::WrongKind => page.edit_frame(rng, |frame, rng| own_kind(frame, rng)),
            Damage::StrangeKind => page.edit_frame(rng, |frame, rng| strange_kind(frame, rng)),
            Damage::HeadValue => page.edit_kind(rng, frames::HEAD, head_value),
            Damage::HighModule => page.high_module(rng),
            Damage::HighVersion => page.edit_kind(rng, frames::VERSION, |frame, rng| {
                frame[rng.between(2, 4)] = 255;
            }),
            Damage::TurnedRange => page.edit_kind(rng, frames::NEED, turned_range),
            Damage::HighCaret => page.edit_kind(rng, frames::CARET, |frame, rng| {
                frame[2] = 255 - rng.below(2) as u8;
            }),
            Damage::OwnNeed => page.own_need(rng),
            Damage::ManyVersions => page.many_versions(rng),
            Damage::ManyNeeds => {
                let more = rng.between(16, 17);
                page.many_needs(rng, more);
            }
            Damage::ManyNeedsInAll => {
                let total = rng.between(1_024, 1_025);
                page.fill_needs(total);
            }
            Damage::RootVersions => page.root_versions(rng),
            Damage::CountOff => page.edit_kind(rng, frames::SHEET_HEAD, |frame, rng| {
                let count = word(frame, 1);
                let off = if rng.chance(1, 2) { 1 } else { u16::MAX };
                set_word(frame, 1, count.wrapping_add(off));
            }),
            Damage::CountValue => page.edit_kind(rng, frames::SHEET_HEAD, |frame, rng| {
                let counts = [0, 480, 481, 1, u16::MAX, rng.number() as u16];
                set_word(frame, 1, rng.one_of(&counts).copied().unwrap_or(0));
            }),
            Damage::OtherNeed => page.edit_kind(rng, frames::NEED_LINE, |frame, rng| {
                let needs = [0, 1_023, 1_024, u16::MAX, rng.below(40) as u16];
                set_word(frame, 1, rng.one_of(&needs).copied().unwrap_or(0));
            }),
            Damage::OtherCitation => page.other_citation(rng),
            Damage::OtherModule => page.edit_kind(rng, frames::RESOLVED_LINE, |frame, rng| {
                let modules = [0, 31, 32, 255, rng.below(12) as u8, rng.below(6) as u8];
                frame[5] = rng.one_of(&modules).copied().unwrap_or(0);
            }),
            Damage::ShorterSheet => page.shorten_sheet(rng),
            Damage::LongerSheet => page.lengthen_sheet(rng),
        }
        page.text()
    }
}

/// A catalogue text spoilt in one way, or now and then in two or three.
pub fn damaged_catalogue(text: &[u8], seed: u64) -> Vec<u8> {
    let mut rng = Rng::new(seed);
    let ways = [&Damage::COMMON[..], &Damage::CATALOGUE[..]].concat();
    spoil_often(text, &ways, &mut rng)
}

/// A sheet text spoilt in one way, or now and then in two or three.
pub fn damaged_sheet(text: &[u8], seed: u64) -> Vec<u8> {
    let mut rng = Rng::new(seed);
    let ways = [&Damage::COMMON[..], &Damage::SHEET[..], &Damage::SHEET[..]].concat();
    spoil_often(text, &ways, &mut rng)
}

fn spoil_often(text: &[u8], ways: &[Damage], rng: &mut Rng) -> Vec<u8> {
    let mut text = text.to_vec();
    let times = match rng.below(8) {
        0 => 3,
        1 => 2,
        _ => 1,
    };
    for _ in 0..times {
        if let Some(way) = rng.one_of(ways) {
            text = way.spoil(&text, rng);
        }
    }
    text
}

/// The ways that need to know what the lines mean.
impl Page {
    /// M as the head tells it.
    fn modules(&self) -> u8 {
        match self.frame(0) {
            Some(frame) if frame.len() > 1 => frame[1],
            _ => 1,
        }
    }

    fn lengthen(&mut self, rng: &mut Rng) {
        let more = match rng.below(3) {
            0 => 1,
            1 => rng.between(2, 9),
            _ => rng.between(10, 1_000),
        };
        self.edit_frame(rng, |frame, rng| {
            frame.extend((0..more).map(|_| rng.byte()));
        });
        if rng.chance(1, 5) {
            self.edit_line(rng, |line, _| line.extend(b"01"));
        }
    }

    fn append_good(&mut self, rng: &mut Rng) {
        for _ in 0..rng.between(1, 3) {
            let at = rng.below(self.lines.len());
            let line = match self.lines.get(at) {
                Some(line) if rng.chance(3, 4) => line.clone(),
                _ => line_of(&[frames::END]),
            };
            self.lines.push(line);
        }
    }

    fn append_faulty(&mut self, rng: &mut Rng) {
        let faulty: [&[u8]; 7] = [
            b"",
            b"04FB",
            b"04fc",
            b"0000",
            b"14EC",
            b"04FC04F",
            b"0101FE00",
        ];
        if rng.chance(1, 3) {
            self.append_good(rng);
        }
        self.lines
            .push(rng.one_of(&faulty).unwrap_or(&faulty[0]).to_vec());
    }

    /// Fills the text up to exactly so many bytes; a longer text stays.
    fn fill(&mut self, rng: &mut Rng, length: usize) {
        let Some(missing) = length.checked_sub(self.length()) else {
            return;
        };
        if missing < 10 || rng.chance(1, 5) {
            self.tail.extend(std::iter::repeat_n(b'0', missing));
            return;
        }
        let at = if rng.chance(1, 2) {
            self.lines.len()
        } else {
            rng.below(self.lines.len() + 1)
        };
        let short = rng.chance(1, 2);
        self.lines.splice(at..at, lines_of_length(missing, short));
    }

    fn high_module(&mut self, rng: &mut Rng) {
        let modules = self.modules();
        let named = [frames::VERSION, frames::NEED, frames::CARET];
        let kind = rng.one_of(&named).copied().unwrap_or(frames::VERSION);
        self.edit_kind(rng, kind, |frame, rng| {
            let highs = [modules, modules.wrapping_sub(1), 32, 255];
            frame[1] = rng.one_of(&highs).copied().unwrap_or(255);
        });
    }

    fn own_need(&mut self, rng: &mut Rng) {
        let kind = if rng.chance(1, 2) {
            frames::NEED
        } else {
            frames::CARET
        };
        let found = self.lines_of_kind(kind);
        let Some(&at) = rng.one_of(&found) else {
            return;
        };
        let owner = (0..at)
            .rev()
            .filter_map(|before| self.frame(before))
            .find(|frame| frame[0] == frames::VERSION && frame.len() == 5);
        if let Some(owner) = owner {
            self.edit_at(at, rng, |frame, _| frame[1] = owner[1]);
        }
    }

    /// Adds versions 254.254.0, 254.254.1, ... after the last lines of some module.
    fn many_versions(&mut self, rng: &mut Rng) {
        let found = self.lines_of_kind(frames::VERSION);
        let Some(frame) = rng.one_of(&found).and_then(|&at| self.frame(at)) else {
            return;
        };
        let module = frame[1];
        let end = found
            .iter()
            .copied()
            .find(|&at| self.frame(at).is_some_and(|frame| frame[1] > module))
            .unwrap_or(self.lines.len().saturating_sub(1));
        for patch in (0..rng.between(8, 17) as u8).rev() {
            let frame = [frames::VERSION, module, 254, 254, patch];
            self.lines.insert(end, line_of(&frame));
        }
    }

    /// Adds so many needs to some version.
    fn many_needs(&mut self, rng: &mut Rng, more: usize) {
        let found = self.lines_of_kind(frames::VERSION);
        if let Some(&at) = rng.one_of(&found) {
            let need = self.any_need(at);
            self.lines
                .splice(at + 1..at + 1, std::iter::repeat_n(need, more));
        }
    }

    /// Adds needs to the versions, from the first on, until there are `total` or each has 16.
    fn fill_needs(&mut self, total: usize) {
        let is_need = |line: &[u8]| line.starts_with(b"03") || line.starts_with(b"05");
        let mut all = self.lines.iter().filter(|line| is_need(line)).count();
        for at in self.lines_of_kind(frames::VERSION).into_iter().rev() {
            let here = self.lines[at + 1..]
                .iter()
                .take_while(|line| is_need(line))
                .count();
            let more = 16usize.saturating_sub(here).min(total.saturating_sub(all));
            let need = self.any_need(at);
            self.lines
                .splice(at + 1..at + 1, std::iter::repeat_n(need, more));
            all += more;
        }
    }

    /// The line of a need, in any version, of some module other than that of the version frame on this line.
    fn any_need(&self, at: usize) -> Vec<u8> {
        let module = self.frame(at).map_or(0, |frame| frame[1]);
        let other = if module == 0 { 1 } else { module - 1 };
        line_of(&[frames::NEED, other, 0, 0, 0, 255, 255, 255])
    }

    fn root_versions(&mut self, rng: &mut Rng) {
        let root = self
            .lines_of_kind(frames::VERSION)
            .into_iter()
            .find(|&at| self.frame(at).is_some_and(|frame| frame[1] == 0));
        let Some(at) = root else {
            return;
        };
        if rng.chance(1, 2) {
            let second = line_of(&[frames::VERSION, 0, 254, 254, 254]);
            self.lines.insert(at + 1, second);
        } else {
            let is_need = |line: &Vec<u8>| line.starts_with(b"03") || line.starts_with(b"05");
            self.lines.remove(at);
            while self.lines.get(at).is_some_and(is_need) {
                self.lines.remove(at);
            }
        }
    }

    fn other_citation(&mut self, rng: &mut Rng) {
        let found = self.lines_of_kind(frames::RESOLVED_LINE);
        if let Some(&at) = rng.one_of(&found) {
            let own = at.saturating_sub(1);
            let cited = match rng.below(3) {
                0 => own,
                1 => own + 1,
                _ => rng.below(own),
            };
            self.edit_at(at, rng, |frame, rng| {
                set_word(frame, rng.between(0, 1) * 2 + 1, cited as u16);
            });
        }
    }

    fn shorten_sheet(&mut self, rng: &mut Rng) {
        let lines = self.lines.len().saturating_sub(2);
        let dropped = rng.between(1, lines.saturating_sub(1).min(3));
        if lines > dropped {
            self.lines.drain(lines + 1 - dropped..lines + 1);
            self.mend_count();
        }
    }

    fn lengthen_sheet(&mut self, rng: &mut Rng) {
        let lines = self.lines.len().saturating_sub(2);
        if lines == 0 {
            return;
        }
        let [a, b] = (rng.below(lines) as u16).to_be_bytes();
        let [c, d] = (rng.below(lines) as u16).to_be_bytes();
        let line = if rng.chance(1, 4) {
            line_of(&[frames::NEED_LINE, 0, rng.below(4) as u8])
        } else {
            line_of(&[frames::RESOLVED_LINE, a, b, c, d, rng.below(4) as u8])
        };
        let end = self.lines.len() - 1;
        self.lines.insert(end, line);
        self.mend_count();
    }

    /// Makes a sheet's head tell how many lines there are between it and the end.
    fn mend_count(&mut self) {
        let [high, low] = (self.lines.len().saturating_sub(2) as u16).to_be_bytes();
        if let Some(line) = self.lines.first_mut() {
            *line = line_of(&[frames::SHEET_HEAD, high, low]);
        }
    }
}

/// Lines of right shape that have exactly so many bytes, at least 10, with their LFs; as many or as few as can be.
fn lines_of_length(bytes: usize, short: bool) -> Vec<Vec<u8>> {
    let mut lines = Vec::new();
    let mut left = bytes;
    // A line of right shape has an odd number of bytes, 5 or more.
    while left.is_multiple_of(2) || (short && left >= 15) {
        lines.push(line_of(&[frames::END]));
        left -= 5;
    }
    lines.push(vec![b'0'; left - 1]);
    lines
}

fn flip_bits(text: &[u8], rng: &mut Rng) -> Vec<u8> {
    let mut text = text.to_vec();
    for _ in 0..rng.between(1, 3) {
        let at = rng.below(text.len());
        if let Some(byte) = text.get_mut(at) {
            *byte ^= 1 << rng.below(8);
        }
    }
    text
}

fn change_field(frame: &mut [u8], rng: &mut Rng) {
    let at = rng.below(frame.len());
    let byte = frame[at];
    let values = [
        0,
        1,
        255,
        254,
        32,
        33,
        byte.wrapping_add(1),
        byte.wrapping_sub(1),
        rng.byte(),
    ];
    frame[at] = rng.one_of(&values).copied().unwrap_or(0);
}

fn lower_case(line: &mut [u8], rng: &mut Rng) {
    if rng.chance(1, 2) {
        line.make_ascii_lowercase();
        return;
    }
    let letters: Vec<usize> = (0..line.len())
        .filter(|&at| line[at].is_ascii_uppercase())
        .collect();
    if let Some(&at) = rng.one_of(&letters) {
        line[at].make_ascii_lowercase();
    }
}

fn strange_byte(line: &mut [u8], rng: &mut Rng) {
    let strange = *b"G@/:`gxX.-+\0\x7F\x80\xFF";
    let at = rng.below(line.len());
    if let (Some(slot), Some(&byte)) = (line.get_mut(at), rng.one_of(&strange)) {
        *slot = byte;
    }
}

fn odd_digits(line: &mut Vec<u8>, rng: &mut Rng) {
    if rng.chance(1, 2) {
        line.pop();
    } else {
        line.push(b'0');
    }
}

/// Another kind of the same text.
fn own_kind(frame: &mut [u8], rng: &mut Rng) {
    let sheet = frame[0] >= frames::SHEET_HEAD;
    let kinds: Vec<u8> = frames::KINDS
        .iter()
        .map(|row| row.code)
        .filter(|&code| !(0x10..0x20).contains(&code) && (code >= 0x20) == sheet)
        .collect();
    frame[0] = rng.one_of(&kinds).copied().unwrap_or(0);
}

/// A kind of any text or of none.
fn strange_kind(frame: &mut [u8], rng: &mut Rng) {
    let kinds = [
        0x00, 0x06, 0x10, 0x11, 0x12, 0x13, 0x14, 0x1F, 0x20, 0x21, 0x22, 0x23, 0x24, 0x01, 0x02,
        0x03, 0x04, 0x05, 0xFF,
    ];
    frame[0] = rng.one_of(&kinds).copied().unwrap_or(0);
}

fn head_value(frame: &mut [u8], rng: &mut Rng) {
    let values = [0, 33, 255, 32, 1, frame[1].wrapping_sub(1), rng.byte()];
    frame[1] = rng.one_of(&values).copied().unwrap_or(0);
}

/// Makes the low version the upper end, or exchanges the two, or leaves just one version between.
fn turned_range(frame: &mut [u8], rng: &mut Rng) {
    let low = [frame[2], frame[3], frame[4]];
    let end = [frame[5], frame[6], frame[7]];
    match rng.below(3) {
        0 => frame[2..5].copy_from_slice(&end),
        1 => {
            frame[2..5].copy_from_slice(&end);
            frame[5..8].copy_from_slice(&low);
        }
        _ => {
            frame[5..8].copy_from_slice(&low);
            frame[7] = frame[7].saturating_add(1);
        }
    }
}
