//! The panel's three cases, on the example circuit of docs/PROTOCOL.md: a good run (K1), an abort (K4), a refusal. Then a circuit that came as
//! Bristol Fashion text: made a file, checked and run; and one that does not do. It prints what the C example prints, and holds the wrapper's
//! other functions to the values of the examples K1 to K12.

use bakebutton::{Answer, Counts, Gate, Sizes};

/// Owners 1 and 2, one gate AND of wires 0 and 1, output wire 2: docs/FORMAT.md says what stands where.
const CIRCUIT: [u8; 42] = [
    42, 0, 0, 0, 2, 0, 0, 0, 1, 0, 0, 0, 1, 0, 0, 0, // 42 bytes, 2 inputs, 1 gate, 1 output
    32, 0, 0, 0, 34, 0, 0, 0, 40, 0, 0, 0, 0, 0, 0, 0, // where owners, gates and outputs begin
    1, 2, // owners
    2, 0, 0, 0, 1, 0, // AND, wires 0 and 1
    2, 0, // output: wire 2
];

const INPUTS: [u8; 2] = [1, 1];

/// Random bits: site 1 has two for its input and two for the AND, site 2 likewise, site 3 two for the AND. A panel draws them.
const TAPES: [u8; 10] = [1, 0, 1, 1, 0, 1, 0, 1, 1, 0];

/// Four gate lines on seven wires: a value of two bits, wires 0 and 1, one of a bit, wire 2, which chooses, and one output, wire 6.
const CHOICE: &str = "4 7\n2 2 1\n1 1\n2 1 0 1 3 XOR\n2 1 3 2 4 AND\n2 1 4 1 5 XOR\n1 1 5 6 EQW\n";
const OWNERS: [u8; 2] = [1, 2]; // of each value: site 1 has the two bits, site 2 chooses
const CHOICE_INPUTS: [u8; 3] = [1, 0, 1];
const CHOICE_TAPES: [u8; 12] = [1, 0, 1, 1, 0, 1, 0, 1, 1, 0, 0, 1];

fn signs(bits: &[u8]) -> String {
    bits.iter().map(|&bit| if bit <= 1 { (b'0' + bit) as char } else { '?' }).collect()
}

/// A run with one bit of the line turned, or none.
fn show_run(file: &[u8], inputs: &[u8], tapes: &[u8], turned: Option<usize>) {
    let sizes = match bakebutton::sizes(file) {
        Answer::Good(sizes) => sizes,
        other => return println!("  answer     {other}"),
    };
    let mut line = vec![0; sizes.line];
    let mut outputs = vec![9; sizes.outputs]; // no bits, so that it shows where nothing was written
    let mut transcript = vec![9; sizes.transcript];
    let mut store = vec![9; sizes.store];
    if let Some(place) = turned {
        line[place] = 1;
    }
    let answer = bakebutton::run(file, inputs, tapes, &line, &mut outputs, &mut transcript, &mut store);
    println!("  answer     {answer}");
    println!("  outputs    {}", signs(&outputs));
    println!("  transcript {}", signs(&transcript));
}

/// A circuit from its text: what it is as a file, and a run of it.
fn show_text(text: &str) {
    let file = match bakebutton::from_bristol(text.as_bytes(), &OWNERS) {
        Answer::Good(file) => file,
        other => return println!("  file       {other}"),
    };
    if let Answer::Good(counts) = bakebutton::check(&file) {
        println!("  file       {} bytes, inputs {}, gates {}, outputs {}", file.len(), counts.inputs, counts.gates, counts.outputs);
    } // a file that is made from a text is always good
    show_run(&file, &CHOICE_INPUTS, &CHOICE_TAPES, None);
}

/// The other calls, against K3, K8, K9, K11 and K12 and its listing.
fn hold_to_document(sizes: &Sizes) {
    let counts = Counts { inputs: 2, gates: 1, outputs: 1 };
    assert_eq!(bakebutton::open(&CIRCUIT), Answer::Good(counts));
    assert_eq!(bakebutton::check(&CIRCUIT), Answer::Good(counts));
    assert_eq!(bakebutton::open(&[]), Answer::Refused { number: 1, place: 0 });
    assert_eq!(bakebutton::gate(&CIRCUIT, 0), Answer::Good(Gate { kind: 2, first: 0, second: 1 }));
    assert_eq!(bakebutton::gate(&CIRCUIT, 65536), Answer::Refused { number: 5, place: 1 });
    assert_eq!(bakebutton::owner(&CIRCUIT, 1), Answer::Good(2));
    assert_eq!(bakebutton::output(&CIRCUIT, 0), Answer::Good(2));
    let mut bad = CIRCUIT;
    bad[38] = 2;
    assert_eq!(bakebutton::check(&bad), Answer::Refused { number: 5, place: 0 });
    assert_eq!(bakebutton::traffic(&CIRCUIT), Answer::Good([[0, 4, 5], [5, 0, 4], [2, 3, 0]]));

    assert_eq!(bakebutton::gate(&CIRCUIT, 65536).to_string(), "refused 5 1: there is no such gate: the circuit has 1");
    assert_eq!(bakebutton::open(&[]).to_string(), "refused 1 0: the file has under 32 bytes");
    assert!(bakebutton::check(&bad).to_string().starts_with("refused 5 0: gate 0 is wrong: "));

    let mut values = vec![9; sizes.values];
    assert_eq!(bakebutton::plain(&CIRCUIT, &INPUTS, &mut values), Answer::Good(()));
    assert_eq!(signs(&values), "111");
    let mut view = vec![9; sizes.view[2]];
    let mut store = vec![9; sizes.store];
    assert_eq!(bakebutton::view(&CIRCUIT, &INPUTS, &TAPES, 3, &mut view, &mut store), Answer::Good(()));
    assert_eq!(signs(&view), "1000011101001");
    let mut fresh = vec![9; sizes.tapes];
    let mut room = vec![9; sizes.room];
    assert_eq!(bakebutton::retape(&CIRCUIT, &[1, 0], &TAPES, &[0, 1], 3, &mut fresh, &mut room), Answer::Good(()));
    assert_eq!(signs(&fresh), "0001010110");
    assert_eq!(bakebutton::retape(&CIRCUIT, &[1, 1], &TAPES, &[1, 0], 3, &mut fresh, &mut room), Answer::Refused { number: 13, place: 2 });

    let mut job: Vec<u8> = [70u32, 16, 58, 60].iter().flat_map(|number| number.to_le_bytes()).collect();
    job.extend_from_slice(&CIRCUIT);
    job.extend_from_slice(&INPUTS);
    job.extend_from_slice(&TAPES);
    let mut text = [0; bakebutton::TEXT_BYTES];
    let said = b"inputs 2 gates 1 outputs 1\nbits 23\nout 0 1\nend\n";
    assert_eq!(bakebutton::listing(&job, &mut text), Answer::Good(said.len()));
    assert_eq!(&text[..said.len()], said);
    assert_eq!(bakebutton::listing(&job[..15], &mut text).to_string(), "refused 14 0: the job has under 16 or over 41,520 bytes, or is not as long as its first number says");
}

/// Files made from texts: K1's circuit, and an owner too few.
fn hold_texts() {
    let refused = bakebutton::from_bristol(CHOICE.as_bytes(), &OWNERS[..1]);
    assert_eq!(refused, Answer::Refused { number: 4, place: 2 });
    assert_eq!(refused.to_string(), "refused 4 2: there are not 2 owners, one for each input value, or that of value 2 is not 1, 2 or 3");
    assert_eq!(bakebutton::from_bristol(b"1 3\n2 1 1\n1 1\n2 1 0 1 2 AND", &OWNERS), Answer::Good(CIRCUIT.to_vec()));
}

fn main() {
    let sizes = match bakebutton::sizes(&CIRCUIT) {
        Answer::Good(sizes) => sizes,
        other => panic!("the circuit: {other}"),
    };
    hold_to_document(&sizes);
    hold_texts();
    println!("K1: the AND of site 1's bit and site 2's bit, both 1, on a clean line");
    show_run(&CIRCUIT, &INPUTS, &TAPES, None);
    println!("K4: the same with bit 20 of the line turned");
    show_run(&CIRCUIT, &INPUTS, &TAPES, Some(20));
    println!("K1 with its last random bit left out");
    show_run(&CIRCUIT, &INPUTS, &TAPES[..sizes.tapes - 1], None);
    println!("A circuit from Bristol Fashion text: site 2's bit chooses one of site 1's two bits, the first");
    show_text(CHOICE);
    println!("The same with its last line left out");
    show_text(&CHOICE[..CHOICE.len() - "1 1 5 6 EQW\n".len()]);
}
