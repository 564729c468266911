//! Bakebutton from Rust: safe functions over the library that include/bakebutton.h declares, whose comments say what each call checks.
//! What that header asks of C the compiler sees to here: a slice is memory that may be read, a lent one is nobody else's.
//!
//! A crate of yours names this one by its path; build.rs says where it finds the library.

use std::fmt;

/// What a call answers. Only a run aborts.
#[must_use = "an abort or a refusal hands nothing over"]
#[derive(Clone, Copy, Debug, PartialEq, Eq)]
pub enum Answer<T = ()> {
    Good(T),
    /// Some site got two unlike copies at this output, and the run stopped there: its outputs are not to be shown.
    Abort { output: usize, sites: Sites },
    /// Number and place by the table of refusals.
    Refused { number: usize, place: usize },
}

/// Number and place, then what they mean: `refused 5 310: gate 310 is wrong: ..`.
impl<T: Value> fmt::Display for Answer<T> {
    fn fmt(&self, f: &mut fmt::Formatter) -> fmt::Result {
        match *self {
            Answer::Good(_) => f.write_str("good"),
            Answer::Abort { output, sites } => write!(f, "abort at output {}, objecting {}: {}", output, sites, Words { number: ABORT, place: output, asked: false, from_text: false }),
            Answer::Refused { number, place } => write!(f, "refused {} {}: {}", number, place, Words { number, place, asked: T::ASKED, from_text: T::FROM_TEXT }),
        }
    }
}

/// What a good answer holds. The three questions by number have words of their own for refusals 4, 5 and 6, whose place is a count, and a
/// file that is made from a text for 4, whose place is a value's number or their count.
pub trait Value {
    const ASKED: bool = false;
    const FROM_TEXT: bool = false;
}

impl Value for () {}
impl Value for usize {}
impl Value for Counts {}
impl Value for Sizes {}
impl Value for Traffic {}
impl Value for Gate {
    const ASKED: bool = true;
}
impl Value for Owner {
    const ASKED: bool = true;
}
impl Value for Wire {
    const ASKED: bool = true;
}
impl Value for File {
    const FROM_TEXT: bool = true;
}

/// A number and a place in words; nothing where no call answers so.
struct Words {
    number: usize,
    place: usize,
    asked: bool,
    from_text: bool,
}

impl fmt::Display for Words {
    fn fmt(&self, f: &mut fmt::Formatter) -> fmt::Result {
        for (n, piece) in words(self.number, self.place, self.asked, self.from_text).split("{place}").enumerate() {
            if n > 0 {
                write!(f, "{}", self.place)?;
            }
            f.write_str(piece)?;
        }
        Ok(())
    }
}

fn words(number: usize, place: usize, asked: bool, from_text: bool) -> &'static str {
    match (number, place) {
        // Made by tools/words from include/words.txt:
        (4, _) if asked => "there is no such input: the circuit has {place}",
        (4, _) if from_text => "there are not {place} owners, one for each input value, or that of value {place} is not 1, 2 or 3",
        (5, _) if asked => "there is no such gate: the circuit has {place}",
        (6, _) if asked => "there is no such output: the circuit has {place}",
        (0, 0) => "good",
        (1, 0) => "the file has under 32 bytes",
        (2, 0) => "there are more than 1,024 inputs",
        (2, 1) => "there are more than 3,072 gates",
        (2, 2) => "there are more than 256 outputs",
        (3, 0) => "the length in the header is not that of the file, or not what its counts ask for",
        (3, 16) => "the offset of the owners in the header is not 32",
        (3, 20) => "the offset of the gates in the header is not where the owners end",
        (3, 24) => "the offset of the outputs in the header is not where the gates end",
        (3, 28) => "the last field of the header is not zero",
        (4, _) => "the owner of input {place} is not 1, 2 or 3",
        (5, _) => "gate {place} is wrong: its kind is unknown, it reads a wire that is not lower than its own, or it is a NOT whose second number is not 0",
        (6, _) => "output {place} is no wire of the circuit",
        (7, _) => "the inputs are not {place} bytes long, or byte {place} of them is above 1",
        (8, _) => "the tapes are not {place} bytes long, or byte {place} of them is above 1",
        (9, _) => "the line is not {place} bytes long, or byte {place} of it is above 1",
        (10, _) => "lent buffer {place} has not exactly its length",
        (11, 0) => "the site is not 1, 2 or 3",
        (12, _) => "the second inputs are not {place} bytes long, or byte {place} of them is above 1",
        (13, _) => "no such tapes exist: input {place} is the site's own and differs or, if {place} is not below the number of inputs, the bit opened at output {place} less that number differs",
        (14, 0) => "the job has under 16 or over 41,520 bytes, or is not as long as its first number says",
        (14, 4) => "the circuit of the job does not begin at 16",
        (14, 8) => "the inputs of the job begin before 16 or behind its end",
        (14, 12) => "the tapes of the job begin before its inputs or behind its end",
        (15, 0) => "the text is empty",
        (15, _) => "line {place}: not of the form that belongs there, above a limit of the text, or a gate line too many; or the text ends there, and a line is missing",
        (16, _) => "line {place}: the gate word is not XOR, AND, INV or EQW",
        (17, _) => "line {place}: a wire is read before it is written, or written twice; or the text ends there, and an output wire is never written",
        (100, _) => "some site got two unlike copies at output {place}: the run stopped there, and nothing is to be shown",
        // So far tools/words.
        _ => "",
    }
}

/// Objecting sites: a sum of 1, 2 and 4 for sites 1, 2 and 3.
#[derive(Clone, Copy, Debug, PartialEq, Eq)]
pub struct Sites(pub usize);

/// `site 2`, or `sites 1 and 3`.
impl fmt::Display for Sites {
    fn fmt(&self, f: &mut fmt::Formatter) -> fmt::Result {
        let mut before = if self.0.count_ones() > 1 { "sites " } else { "site " };
        for site in (1..=3).filter(|&site| self.has(site)) {
            write!(f, "{}{}", before, site)?;
            before = " and ";
        }
        Ok(())
    }
}

impl Sites {
    pub fn has(self, site: usize) -> bool {
        (1..=3).contains(&site) && self.0 & (1 << (site - 1)) != 0
    }
}

#[derive(Clone, Copy, Debug, PartialEq, Eq)]
pub struct Counts {
    pub inputs: usize,
    pub gates: usize,
    pub outputs: usize,
}

#[derive(Clone, Copy, Debug, PartialEq, Eq)]
pub struct Gate {
    pub kind: u16,
    pub first: u16,
    pub second: u16,
}

/// The site that owns an input, as it is stored.
pub type Owner = u8;

/// The wire of an output, as it is stored.
pub type Wire = u16;

/// A circuit file that is made from a text.
pub type File = Vec<u8>;

/// How many bits site s sends to site r: `[s - 1][r - 1]`.
pub type Traffic = [[u32; 3]; 3];

/// The length of each slice and buffer, by its name in the calls; `view[s - 1]` is that of site s.
#[derive(Clone, Copy, Debug, PartialEq, Eq)]
pub struct Sizes {
    pub inputs: usize,
    pub tapes: usize,
    pub line: usize,
    pub values: usize,
    pub outputs: usize,
    pub transcript: usize,
    pub store: usize,
    pub view: [usize; 3],
    pub room: usize,
}

/// How many bytes a listing is lent.
pub const TEXT_BYTES: usize = 2624;

/// How many bytes a file that is made from a text is lent, and has at most.
pub const FILE_ROOM_BYTES: usize = 20000;

const GOOD: usize = 0;
const ABORT: usize = 100;

/// The structs and functions of include/bakebutton.h. Where C has a pointer and a length, they are two parameters.
mod c {
    // Edition 2024 wants the word unsafe here, which older compilers refuse; build.rs tells them apart.
    macro_rules! calls {
        ($($declared:tt)*) => {
            #[cfg(unsafe_extern)]
            unsafe extern "C" {
                $($declared)*
            }
            #[cfg(not(unsafe_extern))]
            extern "C" {
                $($declared)*
            }
        };
    }

    #[repr(C)]
    pub struct Answer {
        pub number: usize,
        pub place: usize,
        pub sites: usize,
    }
    #[repr(C)]
    pub struct CountsAnswer {
        pub number: usize,
        pub place: usize,
        pub inputs: usize,
        pub gates: usize,
        pub outputs: usize,
    }
    #[repr(C)]
    pub struct GateAnswer {
        pub number: usize,
        pub place: usize,
        pub kind: u16,
        pub first: u16,
        pub second: u16,
    }
    #[repr(C)]
    pub struct OwnerAnswer {
        pub number: usize,
        pub place: usize,
        pub owner: u8,
    }
    #[repr(C)]
    pub struct OutputAnswer {
        pub number: usize,
        pub place: usize,
        pub wire: u16,
    }
    #[repr(C)]
    pub struct TrafficAnswer {
        pub number: usize,
        pub place: usize,
        pub bits: [[u32; 3]; 3],
    }
    #[repr(C)]
    pub struct ListingAnswer {
        pub number: usize,
        pub place: usize,
        pub length: usize,
    }
    #[repr(C)]
    pub struct FileAnswer {
        pub number: usize,
        pub place: usize,
        pub length: usize,
    }
    #[repr(C)]
    pub struct SizesAnswer {
        pub number: usize,
        pub place: usize,
        pub inputs: usize,
        pub tapes: usize,
        pub line: usize,
        pub values: usize,
        pub outputs: usize,
        pub transcript: usize,
        pub store: usize,
        pub view: [usize; 3],
        pub room: usize,
    }
    calls! {
        pub fn bakebutton_open(file: *const u8, file_length: usize) -> CountsAnswer;
        pub fn bakebutton_gate(file: *const u8, file_length: usize, k: usize) -> GateAnswer;
        pub fn bakebutton_owner(file: *const u8, file_length: usize, k: usize) -> OwnerAnswer;
        pub fn bakebutton_output(file: *const u8, file_length: usize, k: usize) -> OutputAnswer;
        pub fn bakebutton_check(file: *const u8, file_length: usize) -> CountsAnswer;
        pub fn bakebutton_sizes(file: *const u8, file_length: usize) -> SizesAnswer;
        pub fn bakebutton_plain(file: *const u8, file_length: usize, inputs: *const u8, inputs_length: usize, values: *mut u8, values_length: usize) -> Answer;
        pub fn bakebutton_run(file: *const u8, file_length: usize, inputs: *const u8, inputs_length: usize, tapes: *const u8, tapes_length: usize, line: *const u8, line_length: usize, outputs: *mut u8, outputs_length: usize, transcript: *mut u8, transcript_length: usize, store: *mut u8, store_length: usize) -> Answer;
        pub fn bakebutton_view(file: *const u8, file_length: usize, inputs: *const u8, inputs_length: usize, tapes: *const u8, tapes_length: usize, site: usize, view: *mut u8, view_length: usize, store: *mut u8, store_length: usize) -> Answer;
        pub fn bakebutton_retape(file: *const u8, file_length: usize, inputs: *const u8, inputs_length: usize, tapes: *const u8, tapes_length: usize, second: *const u8, second_length: usize, site: usize, fresh: *mut u8, fresh_length: usize, room: *mut u8, room_length: usize) -> Answer;
        pub fn bakebutton_traffic(file: *const u8, file_length: usize) -> TrafficAnswer;
        pub fn bakebutton_listing(job: *const u8, job_length: usize, text: *mut u8, text_length: usize) -> ListingAnswer;
        pub fn bakebutton_from_bristol(text: *const u8, text_length: usize, owners: *const u8, owners_length: usize, room: *mut u8, room_length: usize) -> FileAnswer;
    }
}

fn told<T>(number: usize, place: usize, sites: usize, value: T) -> Answer<T> {
    match number {
        GOOD => Answer::Good(value),
        ABORT => Answer::Abort { output: place, sites: Sites(sites) },
        _ => Answer::Refused { number, place },
    }
}

fn counts(a: c::CountsAnswer) -> Answer<Counts> {
    told(a.number, a.place, 0, Counts { inputs: a.inputs, gates: a.gates, outputs: a.outputs })
}

/// The counts of a file whose header is good.
pub fn open(file: &[u8]) -> Answer<Counts> {
    counts(unsafe { c::bakebutton_open(file.as_ptr(), file.len()) })
}

/// Gate k as it is stored, good or bad.
pub fn gate(file: &[u8], k: usize) -> Answer<Gate> {
    let a = unsafe { c::bakebutton_gate(file.as_ptr(), file.len(), k) };
    told(a.number, a.place, 0, Gate { kind: a.kind, first: a.first, second: a.second })
}

/// The owner of input k as it is stored.
pub fn owner(file: &[u8], k: usize) -> Answer<Owner> {
    let a = unsafe { c::bakebutton_owner(file.as_ptr(), file.len(), k) };
    told(a.number, a.place, 0, a.owner)
}

/// The wire of output k as it is stored.
pub fn output(file: &[u8], k: usize) -> Answer<Wire> {
    let a = unsafe { c::bakebutton_output(file.as_ptr(), file.len(), k) };
    told(a.number, a.place, 0, a.wire)
}

/// The whole circuit, checked.
pub fn check(file: &[u8]) -> Answer<Counts> {
    counts(unsafe { c::bakebutton_check(file.as_ptr(), file.len()) })
}

/// The lengths of all slices and buffers that go with a circuit.
pub fn sizes(file: &[u8]) -> Answer<Sizes> {
    let a = unsafe { c::bakebutton_sizes(file.as_ptr(), file.len()) };
    let sizes = Sizes {
        inputs: a.inputs,
        tapes: a.tapes,
        line: a.line,
        values: a.values,
        outputs: a.outputs,
        transcript: a.transcript,
        store: a.store,
        view: a.view,
        room: a.room,
    };
    told(a.number, a.place, 0, sizes)
}

/// The plain value of every wire.
pub fn plain(file: &[u8], inputs: &[u8], values: &mut [u8]) -> Answer {
    let a = unsafe { c::bakebutton_plain(file.as_ptr(), file.len(), inputs.as_ptr(), inputs.len(), values.as_mut_ptr(), values.len()) };
    told(a.number, a.place, a.sites, ())
}

/// The run of the three sites on a line.
pub fn run(file: &[u8], inputs: &[u8], tapes: &[u8], line: &[u8], outputs: &mut [u8], transcript: &mut [u8], store: &mut [u8]) -> Answer {
    let a = unsafe {
        c::bakebutton_run(
            file.as_ptr(), file.len(), inputs.as_ptr(), inputs.len(), tapes.as_ptr(), tapes.len(), line.as_ptr(), line.len(),
            outputs.as_mut_ptr(), outputs.len(), transcript.as_mut_ptr(), transcript.len(), store.as_mut_ptr(), store.len(),
        )
    };
    told(a.number, a.place, a.sites, ())
}

/// What one site sees of a run on a clean line.
pub fn view(file: &[u8], inputs: &[u8], tapes: &[u8], site: usize, view: &mut [u8], store: &mut [u8]) -> Answer {
    let a = unsafe {
        c::bakebutton_view(
            file.as_ptr(), file.len(), inputs.as_ptr(), inputs.len(), tapes.as_ptr(), tapes.len(), site,
            view.as_mut_ptr(), view.len(), store.as_mut_ptr(), store.len(),
        )
    };
    told(a.number, a.place, a.sites, ())
}

/// The tapes that explain one site's view by other inputs.
pub fn retape(file: &[u8], inputs: &[u8], tapes: &[u8], second: &[u8], site: usize, fresh: &mut [u8], room: &mut [u8]) -> Answer {
    let a = unsafe {
        c::bakebutton_retape(
            file.as_ptr(), file.len(), inputs.as_ptr(), inputs.len(), tapes.as_ptr(), tapes.len(), second.as_ptr(), second.len(), site,
            fresh.as_mut_ptr(), fresh.len(), room.as_mut_ptr(), room.len(),
        )
    };
    told(a.number, a.place, a.sites, ())
}

/// How many bits each site sends to each other.
pub fn traffic(file: &[u8]) -> Answer<Traffic> {
    let a = unsafe { c::bakebutton_traffic(file.as_ptr(), file.len()) };
    told(a.number, a.place, 0, a.bits)
}

/// The listing of a job: how many bytes in front in the lent buffer are its text. A refusal leaves the buffer as it was.
pub fn listing(job: &[u8], text: &mut [u8; TEXT_BYTES]) -> Answer<usize> {
    let a = unsafe { c::bakebutton_listing(job.as_ptr(), job.len(), text.as_mut_ptr(), text.len()) };
    told(a.number, a.place, 0, a.length)
}

/// The circuit file of a Bristol Fashion text, which `check` accepts. There is an owner for each input value of the text, in their order: the
/// site that owns all bits of the value.
pub fn from_bristol(text: &[u8], owners: &[u8]) -> Answer<File> {
    let mut room = vec![0; FILE_ROOM_BYTES];
    let a = unsafe { c::bakebutton_from_bristol(text.as_ptr(), text.len(), owners.as_ptr(), owners.len(), room.as_mut_ptr(), room.len()) };
    room.truncate(a.length);
    told(a.number, a.place, 0, room)
}
