//! A table with all that is measured on it, found to be the same by both engines.

use dekohuna::{Answer, Label};
use oracle::places::Places;
use oracle::size::Size;
use oracle::table::accept;

use crate::engine::Engine;
use crate::inputs::Input;

/// The most open steps that are asked for.
pub const LABELS: usize = 1024;

/// The most markings along the history that are kept.
const POINTS: usize = 16;

pub struct Case {
    pub title: &'static str,
    pub table: Vec<u16>,
    pub image: Vec<u32>,
    pub initial: Vec<u8>,
    pub limit: usize,
    /// The numbers of a run by the lowest enabled transition, and of one that settles first.
    pub history: Vec<u32>,
    pub settled: Vec<u32>,
    /// Places where the process can go on, spread over the history.
    pub points: Vec<Point>,
}

/// A marking, the state it stands for and the first open step.
pub struct Point {
    pub marking: Vec<u8>,
    pub state: Vec<u16>,
    pub label: Label,
}

/// The two engines, asked the same.
pub struct Both<'a> {
    pub library: &'a dyn Engine,
    pub oracle: &'a dyn Engine,
}

impl Both<'_> {
    /// The answer and the output of a call, if the engines agree. The output is lent to both as it is.
    fn agree<W: Clone + PartialEq>(
        &self,
        call: &str,
        output: &[W],
        ask: impl Fn(&dyn Engine, &mut [W]) -> Answer,
    ) -> Result<(Answer, Vec<W>), String> {
        let mut outputs = [output.to_vec(), output.to_vec()];
        let library = ask(self.library, &mut outputs[0]);
        let oracle = ask(self.oracle, &mut outputs[1]);
        if library != oracle {
            return Err(format!("{call}: library {library:?}, oracle {oracle:?}"));
        }
        let [output, other] = outputs;
        if let Some(at) = (0..output.len()).find(|&at| output[at] != other[at]) {
            return Err(format!("{call}: the outputs differ at {at}"));
        }
        Ok((library, output))
    }

    /// Asks both for all that is measured on an input.
    pub fn prepare(&self, input: Input) -> Result<Case, String> {
        let Input {
            title,
            table,
            limit,
        } = input;
        self.agree("check", &[0u8; 0], |engine, _| engine.check(&table))?;
        let image = self.image(&table)?;
        let marking = vec![1; image[0] as usize];
        let (_, initial) = self.agree("replay of nothing", &marking, |engine, marking| {
            engine.replay(&image, marking, &[])
        })?;
        let history = self.history(&image, &initial, limit, |engine, marking, history| {
            engine.run_lowest(&image, marking, limit as u64, history)
        })?;
        let settled = self.history(&image, &initial, limit, |engine, marking, history| {
            engine.run(&image, marking, limit as u64, history)
        })?;
        let points = self.points(&table, &image, &initial, &history)?;
        Ok(Case {
            title,
            table,
            image,
            initial,
            limit,
            history,
            settled,
            points,
        })
    }

    fn image(&self, table: &[u16]) -> Result<Vec<u32>, String> {
        let length = image_words(table)?;
        self.agree(
            "build in too few words",
            &vec![7; length - 1],
            |engine, out| engine.build(table, out),
        )?;
        let build = |engine: &dyn Engine, out: &mut [u32]| engine.build(table, out);
        let (answer, image) = self.agree("build", &vec![7; length], build)?;
        match answer.code {
            0 => Ok(image),
            code => Err(format!("build: refused by {code}")),
        }
    }

    /// The history of a run, whose marking a replay of it must give too.
    fn history(
        &self,
        image: &[u32],
        initial: &[u8],
        limit: usize,
        run: impl Fn(&dyn Engine, &mut [u8], &mut [u32]) -> Answer,
    ) -> Result<Vec<u32>, String> {
        let (answer, mut history) = self.agree("run", &vec![7; limit], |engine, history| {
            run(engine, &mut initial.to_vec(), history)
        })?;
        history.truncate(answer.value as usize);
        let (_, run) = self.agree("run's marking", initial, |engine, marking| {
            run(engine, marking, &mut vec![0; limit])
        })?;
        let (_, replayed) = self.agree("replay", initial, |engine, marking| {
            engine.replay(image, marking, &history)
        })?;
        if run == replayed {
            Ok(history)
        } else {
            Err("a run and its replay leave different markings".to_string())
        }
    }

    /// Looks at the firings of the history and makes them, one by one, and reads the state now and then.
    fn points(
        &self,
        table: &[u16],
        image: &[u32],
        initial: &[u8],
        history: &[u32],
    ) -> Result<Vec<Point>, String> {
        let mut marking = initial.to_vec();
        let mut points = Vec::new();
        let every = history.len().div_ceil(POINTS).max(1);
        for (fired, &number) in history.iter().enumerate() {
            if fired % every == 0 {
                points.extend(self.point(table, &marking)?);
            }
            let (_, shown) = self.agree("look", &vec![7; marking.len()], |engine, next| {
                engine.look(image, &marking, number, next)
            })?;
            let (_, next) = self.agree("fire", &marking, |engine, marking| {
                engine.fire(image, marking, number)
            })?;
            if next != shown {
                return Err("a firing leaves another marking than the look showed".to_string());
            }
            marking = next;
        }
        self.agree("fire no transition", &marking, |engine, marking| {
            engine.fire(image, marking, image[1])
        })?;
        Ok(points)
    }

    /// The point at a marking, or none where no step is open.
    fn point(&self, table: &[u16], marking: &[u8]) -> Result<Option<Point>, String> {
        let empty = vec![7; usize::from(table[1] + table[3])];
        self.agree("start", &empty, |engine, state| engine.start(table, state))?;
        let (_, state) = self.agree("read", &empty, |engine, state| {
            engine.read(table, marking, state)
        })?;
        let (answer, labels) = self.agree("open steps", &[7; 3 * LABELS], |engine, labels| {
            engine.open_steps(table, &state, labels)
        })?;
        let open: Vec<Label> = labels[..3 * answer.value as usize]
            .chunks_exact(3)
            .map(|words| [words[0], words[1], words[2]])
            .collect();
        for &label in &open {
            self.agree("step", &empty, |engine, next| {
                engine.step(table, &state, label, next)
            })?;
        }
        Ok(open.first().map(|&label| Point {
            marking: marking.to_vec(),
            state,
            label,
        }))
    }
}

/// The length of a table's image.
fn image_words(words: &[u16]) -> Result<usize, String> {
    let table = accept(words).map_err(|cause| format!("check: refused by {cause}"))?;
    let places = Places::of(&table);
    let initial = places.initial(&table).len();
    Ok(Size::of(&table, &places).image_words(initial))
}
