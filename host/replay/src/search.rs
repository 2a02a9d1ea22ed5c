//! The error sums and the searches.

use crate::Section;
use crate::bytes::Bytes;
use crate::passes::{Kept, boundary, boundary_lists, drawn};
use crate::picture::{self, Answer, LENGTHS, Layout, Lists, PASSES, Pass, Picture, Planes, Records, SCRATCH, SIDE};
use oracle::{InterFilterInfo, KeyframePlanes, SourcePlanes, loop_filter};
use rules::random::Random;

pub fn sections(random: &mut Random) -> Vec<Section> {
    let mut sections = Vec::new();
    let name = |pass: Pass, more: &str| match pass {
        Pass::Key => {
            format!("reconstruction_ssd, reconstruction_ssd_from, select_filter_params, select_filter_level{more}")
        }
        Pass::Inter => format!(
            "reconstruction_ssd, reconstruction_ssd_from, select_filter_params_inter, select_filter_level_inter{more}"
        ),
    };
    for pass in PASSES {
        let records = (0..9).map(|i| ordinary(random, pass, i)).collect::<Vec<_>>();
        sections.push(Section::new(&name(pass, ""), records).marked(4));
    }
    for pass in PASSES {
        sections.push(Section::new(&name(pass, ", nothing changes"), idle(random, pass)).marked(4));
    }
    sections
}

/// A search: the picture is the reconstruction.
struct Search {
    picture: Picture,
    lists: Lists,
    source: Planes,
    width: usize,
    height: usize,
    strides: [usize; 2],
}

/// Level, sharpness and number of candidates.
type Choice = (u8, u8, usize);

impl Search {
    /// The numbers of the source.
    fn source(&self) -> rules::Source {
        let [y_stride, uv_stride] = self.strides;
        let lengths = self.source.each_ref().map(Vec::len);
        rules::Source { width: self.width, height: self.height, y_stride, uv_stride, lengths }
    }

    /// Document 01: 1, 2 and 3 for planes of these lengths, passed over without a grid; 8; 9.
    fn refusal(&self, lengths: &[[usize; 3]]) -> Result<(), u8> {
        self.source().refusal(&self.picture.layout, lengths)
    }

    fn right_lengths(&self) -> bool {
        let Layout { columns, rows, .. } = self.picture.layout;
        columns.checked_mul(rows) == Some(4)
    }

    /// What the Rust's pass makes of the reconstruction. Level 0 and lists of wrong length leave it.
    fn candidate(&self, level: u8, sharpness: u8) -> Planes {
        if level == 0 || !self.right_lengths() {
            return self.picture.planes.clone();
        }
        let config = self.picture.config.with_loop_filter_level(level).with_sharpness_level(sharpness);
        Picture { config, ..self.picture.clone() }.unbroken()
    }

    fn rust_source(&self) -> SourcePlanes<'_> {
        let [y, u, v] = self.source.each_ref().map(Vec::as_slice);
        let [y_stride, uv_stride] = self.strides;
        SourcePlanes { width: self.width, height: self.height, y, u, v, y_stride, uv_stride }
    }

    /// The Rust's sum. It is 0 where the source has no samples, where the Rust may panic.
    fn sum(&self, planes: Planes) -> u64 {
        if self.width == 0 || self.height == 0 {
            return 0;
        }
        let planes: KeyframePlanes = Picture { planes, ..self.picture.clone() }.rust_planes();
        loop_filter::reconstruction_ssd(&planes, &self.rust_source())
    }

    fn sum_answer(&self) -> Answer {
        self.refusal(&[LENGTHS])?;
        Ok([self.sum(self.picture.planes.clone()) as usize, 0])
    }

    /// Document 01, Search: level, sharpness and count. Every sum is the Rust's.
    fn by_the_rule(&self) -> Choice {
        let sum = |level, sharpness| self.sum(self.candidate(level, sharpness));
        rules::choice(self.picture.config.sharpness_level, sum)
    }

    /// The Rust's own search, where it has one, chooses the same.
    fn agrees(&self, (level, sharpness, _): Choice) {
        if self.width == 0 || self.height == 0 || !self.right_lengths() {
            return;
        }
        let Records { modes, flags, references, inter_modes } = &self.picture.records;
        let info = InterFilterInfo { ref_frames: references, inter_modes };
        let inter = (self.picture.pass == Pass::Inter).then_some(&info);
        let (planes, source, config) = (self.picture.rust_planes(), self.rust_source(), &self.picture.config);
        let both = loop_filter::select_filter_params(&planes, modes, flags, config, &source, inter);
        assert_eq!(both, (level, sharpness), "the Rust's search");
        let alone = loop_filter::select_filter_level(&planes, modes, flags, config, &source, inter);
        assert_eq!(alone, level, "the Rust's search for the level");
    }

    fn choice(&self) -> Result<Choice, u8> {
        self.refusal(&[LENGTHS, SCRATCH])?;
        if self.picture.layout.has_grid() && self.right_lengths() && self.lists.bad(self.picture.pass) {
            return Err(6);
        }
        let choice = if self.picture.layout.has_grid() && self.right_lengths() {
            self.by_the_rule()
        } else {
            (0, self.picture.config.sharpness_level.min(7), 19)
        };
        self.agrees(choice);
        Ok(choice)
    }

    /// The scratch planes after the search: the grid as the chosen pass leaves it.
    fn scratch(&self, choice: Result<Choice, u8>) -> Planes {
        let mut scratch = picture::stripes(SCRATCH);
        let (Ok((level, sharpness, _)), true) = (choice, self.picture.layout.has_grid()) else {
            return scratch;
        };
        let (chosen, layout) = (self.candidate(level, sharpness), self.picture.layout);
        for p in 0..3 {
            for row in 0..SIDE[p] * layout.rows {
                let at = row * layout.stride(p)..row * layout.stride(p) + SIDE[p] * layout.columns;
                scratch[p][at.clone()].copy_from_slice(&chosen[p][at]);
            }
        }
        scratch
    }

    fn head(&self) -> Bytes {
        let place = Bytes::default().place(&self.picture.layout, self.width, self.height);
        let strides = self.strides.into_iter().fold(place.settings(&self.picture.config), Bytes::size);
        self.lists.0.iter().fold(strides, |bytes, list| bytes.bytes(list))
    }
}

/// The number of the refusal of the sum, and the sum; then those of the search.
fn answers(bytes: Bytes, sum: Answer, choice: Result<Choice, u8>) -> Bytes {
    let (level, sharpness, count) = choice.unwrap_or_default();
    bytes.answer(sum).bytes(&[choice.err().unwrap_or(0), level, sharpness]).size(count)
}

/// The source is what some level makes of the reconstruction, with noise; or any; or equal.
fn ordinary(random: &mut Random, pass: Pass, i: usize) -> Bytes {
    let (mut picture, lists) = drawn(random, pass, i);
    if i == 5 {
        // Three macroblocks and lists of four.
        picture.layout = Layout { columns: 1, rows: 3, y_stride: 17, uv_stride: 9 };
    }
    let sharpness = random.one_of(&[0, 1, 3, 5, 7, 8, 255]);
    picture.config = picture.config.with_sharpness_level(sharpness);
    let Layout { columns, rows, y_stride, uv_stride } = picture.layout;
    let (width, height) = match i % 6 {
        4 => (0, 16 * rows),
        1 | 3 => (16 * columns - random.below(15), 16 * rows - random.below(15)),
        _ => (16 * columns, 16 * rows),
    };
    let mut search =
        Search { picture, lists, source: Planes::default(), width, height, strides: [y_stride, uv_stride] };
    let (level, noise) = ([35, 2, 9, 63, 17, 44, 26, 1, 61][i], if i % 2 == 1 { 1 } else { random.one_of(&[2, 3]) });
    search.source = if i == 2 { search.candidate(0, 0) } else { search.candidate(level, random.below(8) as u8) };
    if i != 2 {
        let noisy = |sample: &mut u8| *sample = sample.saturating_add(random.below(noise) as u8);
        search.source.iter_mut().flatten().for_each(noisy);
    }
    let (sum, choice) = (search.sum_answer(), search.choice());
    assert!(choice.is_ok(), "an accepted search");
    let planes = [&search.picture.planes, &search.source, &search.scratch(choice)];
    let bytes = planes.into_iter().flatten().fold(search.head(), |bytes, plane| bytes.bytes(plane));
    answers(bytes, sum, choice)
}

/// Searches on the program's own stripes that leave the scratch planes.
fn idle(random: &mut Random, pass: Pass) -> Vec<Bytes> {
    let mut kept = Kept::new(&[0, 1, 2, 3, 6, 8, 9]);
    while kept.wants() {
        let (layout, lists) = (boundary_or_short(random), boundary_lists(random));
        let config = crate::settings::any(random);
        let planes = picture::stripes(LENGTHS);
        let records = if lists.bad(pass) { Records::new() } else { lists.records(pass) };
        let sides = [layout.columns, layout.rows].map(|macroblocks| 16 * macroblocks.min(1024));
        let size = |random: &mut Random, side: usize| random.one_of(&[0, 1, side, side, side, side + 1, usize::MAX]);
        let (width, height) = (size(random, sides[0]), size(random, sides[1]));
        let (row, half) = (width.min(1 << 16), width.min(1 << 16).div_ceil(2));
        let y = random.one_of(&[layout.y_stride, layout.y_stride, row, row.saturating_sub(1), 65_536, 65_537]);
        let uv = random.one_of(&[layout.uv_stride, layout.uv_stride, half, half.saturating_sub(1), 65_537, usize::MAX]);
        let picture = Picture { pass, layout, planes: planes.clone(), records, config };
        let search = Search { picture, lists, source: planes, width, height, strides: [y, uv] };
        let (sum, choice) = (search.sum_answer(), search.choice());
        if search.scratch(choice) == picture::stripes(SCRATCH) {
            kept.offer(choice.map(|_| [0, 0]), answers(search.head(), sum, choice));
        }
    }
    kept.records
}

/// Besides the layouts of the passes those that the picture's planes fit and one of the scratch planes does not.
fn boundary_or_short(random: &mut Random) -> Layout {
    match random.below(8) {
        0 => Layout { columns: 2, rows: 2, y_stride: 40, uv_stride: 16 },
        1 => Layout { columns: 2, rows: 2, y_stride: 32, uv_stride: 22 },
        2 => Layout { columns: 1, rows: 4, y_stride: 16, uv_stride: 11 },
        _ => boundary(random),
    }
}
