//! small POINTERS LISTED STEPPED: the shapes and the statements over so many pointers with what the second translator answers, for
//! tests/small-shapes to hold the definitions against: all shapes over the pointers or, of six, the sample. Of the pairs of a shape
//! and a statement one in LISTED is translated, and one in STEPPED is stepped on a heap that the shape describes. Nothing here calls
//! the proved library. How they are written: src/stream.rs.

use native::rings::full;
use native::small::{counters, input, sample, shapes, spread, statements};
use native::stream::Stream;
use std::io::Write;

type Record = [u8; 32];

/// A heap unfolded, one step on it, and what that leaves folded. The cell for new is the first that is not in use.
fn step(out: &mut Stream, shape: &Record, statement: &Record, number: usize) {
    let (counters, pick) = (counters(shape[3], 7 * number), number % 2);
    let used = counters.iter().sum::<u32>() as usize;
    out.unfolding(shape, &counters, [6, used + 1]);
    let (mut pointers, mut cells) = (vec![0; 6], vec![0; used + 1]);
    reference::unfold(shape, &counters, &mut pointers, &mut cells).expect("as many cells as are wanted");
    out.stepping((pointers.clone(), cells.clone()), statement, pick as u8, used);
    reference::step(&mut pointers, &mut cells, statement, pick as u64, used as u64);
    out.folding(&pointers, &cells);
}

fn main() {
    let number = |word: String| word.parse().expect("a number");
    let words: Vec<usize> = std::env::args().skip(1).map(number).collect();
    let [pointers, listed, stepped] = words[..] else { panic!("small POINTERS LISTED STEPPED") };
    let shapes = if pointers == 6 { sample() } else { shapes(pointers) };
    let (statements, mut out) = (statements(pointers as u8), Stream::default());
    for (shape, statement) in spread(shapes.len(), statements.len(), listed) {
        let input = input(&statements[statement], &shapes[shape]);
        out.translation(&input, [512, 512], full(&input));
    }
    for (shape, statement) in spread(shapes.len(), statements.len(), stepped) {
        step(&mut out, &shapes[shape], &statements[statement], shape);
    }
    let trials = out.trials;
    out.begin(b'Z');
    out.number(trials);
    std::io::stdout().write_all(&out.bytes).expect("a stream that can be written to");
}
