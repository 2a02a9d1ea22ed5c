//! Filters a small picture, one row of macroblocks a call, and sends on the rows that are final after each call.

use std::process::ExitCode;
use vp8_loop_filter::{FinalRows, FrameFilterConfig, FramePass, KeyframePlanes, MacroblockModes, Planes, Refusal};

const COLUMNS: usize = 3;
const ROWS: usize = 2;

/// What went down the line: luma rows, and how many rows of both kinds. And how many positions were smoothed.
struct Sent {
    luma: Vec<u8>,
    rows: FinalRows,
    smoothed: usize,
}

impl Sent {
    /// Sends the rows that are final and not yet sent.
    fn send_down(&mut self, planes: Planes<'_>, rows: FinalRows) {
        println!("luma rows {} to {} are final", self.rows.luma, rows.luma);
        self.luma.extend(&planes.y[self.rows.luma * planes.y_stride..rows.luma * planes.y_stride]);
        self.rows = rows;
    }
}

/// Stands for the decoder: macroblocks of 100, 108 and 100 side by side, grey chroma.
fn decoded() -> KeyframePlanes {
    let y = (0..16 * ROWS).flat_map(|_| (0..16 * COLUMNS).map(|column| if column / 16 == 1 { 108 } else { 100 }));
    let chroma = vec![128; 8 * ROWS * 8 * COLUMNS];
    KeyframePlanes {
        y: y.collect(),
        u: chroma.clone(),
        v: chroma,
        y_stride: 16 * COLUMNS,
        uv_stride: 8 * COLUMNS,
        mb_cols: COLUMNS,
        mb_rows: ROWS,
    }
}

fn filter(planes: &mut KeyframePlanes, sent: &mut Sent) -> Result<(), Refusal> {
    let (modes, flags) = ([MacroblockModes::default(); COLUMNS * ROWS], [false; COLUMNS * ROWS]);
    // README: from here
    let config = FrameFilterConfig::default().with_key_frame(true).with_loop_filter_level(24);
    let mut pass = FramePass::of_frame(planes, &modes, &flags, None, &config)?;
    while !pass.is_done() {
        pass.advance(COLUMNS)?; // one row of macroblocks a call
        sent.send_down(pass.planes(), pass.final_rows()?); // these rows will not change any more
    }
    // README: to here
    sent.smoothed = pass.smoothed();
    Ok(())
}

fn main() -> ExitCode {
    let rows = FinalRows { luma: 0, chroma: 0 };
    let (mut planes, mut sent) = (decoded(), Sent { luma: Vec::new(), rows, smoothed: 0 });
    if let Err(refusal) = filter(&mut planes, &mut sent) {
        println!("{refusal}");
        return ExitCode::FAILURE;
    }
    let edge = &sent.luma[12..20];
    println!("the first edge: {edge:?}; {} positions smoothed", sent.smoothed);
    // Figure K of the scope paper.
    let smooth = edge == [100, 101, 102, 103, 105, 106, 107, 108];
    // All positions of the four left and the three top edges: 16 in luma, 8 in each chroma plane.
    let all = sent.smoothed == 7 * (16 + 8 + 8);
    if smooth && all && sent.luma == planes.y { ExitCode::SUCCESS } else { ExitCode::FAILURE }
}
