//! The cleaning program beside the model: what it prints, and the bytes of clean.wkb. Each run is a process of its own, in an empty folder, so the chains are
//! many to an input. The file that was written is cleaned once more: nothing has to be printed, and the same bytes written.

use super::{clean, Kind};
use crate::model;
use crate::random::Random;
use std::fs;
use std::io::Write;
use std::path::PathBuf;
use std::process::{id, Command, Stdio};

/// The bytes that the program takes.
const MOST: usize = 65_536;

#[derive(Clone)]
pub struct Input {
    /// A LineString, of the first member; else a MultiLineString.
    pub line: bool,
    pub little: bool,
    /// Each with whether it stands in the little order.
    pub members: Vec<(bool, Vec<[u64; 2]>)>,
    /// So many bytes are missing at the end, and then these follow.
    pub cut: usize,
    pub more: Vec<u8>,
}

impl Input {
    fn whole(line: bool, members: Vec<Vec<[u64; 2]>>) -> Input {
        Input { line, little: true, members: members.into_iter().map(|m| (true, m)).collect(), cut: 0, more: vec![] }
    }

    fn bytes(&self) -> Vec<u8> {
        // a LineString is a MultiLineString of one member without its head
        let mut bytes = if self.line { model::multi_line_string(true, &self.members[..1]).split_off(9) } else { model::multi_line_string(self.little, &self.members) };
        bytes.truncate(bytes.len().saturating_sub(self.cut));
        bytes.extend(&self.more);
        bytes
    }
}

/// Where the program runs: in memory, where there is a folder for that, for it waits until its file is stored.
fn folder() -> PathBuf {
    let memory = PathBuf::from("/dev/shm");
    let above = if memory.is_dir() { memory } else { std::env::temp_dir() };
    above.join(format!("morelturret-clean-{}", id()))
}

/// Takes the folder away.
pub fn end() {
    let _ = fs::remove_dir_all(folder());
}

/// What the program prints, and the file that it leaves.
fn run(bytes: &[u8]) -> Result<(String, Option<Vec<u8>>), String> {
    let words = std::env::var("MORELTURRET_CLEAN").map_err(|_| "MORELTURRET_CLEAN does not name the program".to_string())?;
    let words: Vec<&str> = words.lines().collect();
    let failed = |e: std::io::Error| format!("the program does not run: {e}");
    let folder = folder();
    fs::create_dir_all(&folder).map_err(failed)?;
    let piped = Stdio::piped;
    let mut child = Command::new(words[0]).args(&words[1..]).current_dir(&folder).stdin(piped()).stdout(piped()).stderr(piped()).spawn().map_err(failed)?;
    // of an input that is too long the rest is not read
    let _ = child.stdin.take().unwrap().write_all(bytes);
    let said = child.wait_with_output().map_err(failed)?;
    if !said.status.success() || !said.stderr.is_empty() {
        return Err(format!("the program ends with {} and says {:?}", said.status, String::from_utf8_lossy(&said.stderr)));
    }
    let file = fs::read(folder.join("clean.wkb")).ok();
    if file.is_some() {
        fs::remove_file(folder.join("clean.wkb")).map_err(failed)?;
    }
    match fs::read_dir(&folder).map_err(failed)?.next() {
        Some(left) => Err(format!("the program leaves {:?}", left.map_err(failed)?.file_name())),
        None => Ok((String::from_utf8_lossy(&said.stdout).into_owned(), file)),
    }
}

fn alike(name: &str, wanted: (&str, Option<&[u8]>), got: &(String, Option<Vec<u8>>)) -> Result<(), String> {
    if wanted.0 != got.0 {
        let differs = wanted.0.lines().zip(got.0.lines()).position(|(a, b)| a != b).unwrap_or(wanted.0.lines().count().min(got.0.lines().count()));
        return Err(format!("{name}: line {differs} printed is {:?}, {:?} wanted", got.0.lines().nth(differs), wanted.0.lines().nth(differs)));
    }
    match (wanted.1, got.1.as_deref()) {
        (Some(a), Some(b)) if a != b => {
            let i = a.iter().zip(b).position(|(a, b)| a != b).unwrap_or(a.len().min(b.len()));
            Err(format!("{name}: byte {i} of the file is {:02x?}, {:02x?} wanted; it has {} bytes, {} wanted", b.get(i), a.get(i), b.len(), a.len()))
        }
        (a, b) if a.is_some() != b.is_some() => Err(format!("{name}: there is {} file, {} wanted", if b.is_some() { "a" } else { "no" }, if a.is_some() { "one" } else { "none" })),
        _ => Ok(()),
    }
}

pub struct Program;

impl Kind for Program {
    type Case = Input;
    const NAME: &'static str = "clean-program";
    const SIDES: &'static str = "program and model";

    fn draw(r: &mut Random) -> (&'static str, Input) {
        let gaps = r.pick(&[4, 12, 60, 400]);
        let line = r.once_in(4);
        let many = if line { 1 } else { r.below(24) };
        let most = if line { r.pick(&[3, 60, 1024]) } else { 14 };
        let lengths: Vec<u32> = (0..many).map(|_| if r.once_in(60) { r.pick(&[1, 1023, 1024]) } else { 1 + r.below(most) as u32 }).collect();
        let mut c = Input::whole(line, lengths.into_iter().map(|n| clean::member(r, n, gaps)).collect());
        c.little = r.once_in(2);
        c.members.iter_mut().for_each(|m| m.0 = r.once_in(2));
        let n = c.bytes().len();
        let shape = match r.below(12) {
            0 => {
                c.cut = 1 + r.below(n as u64) as usize;
                "cut"
            }
            1 => {
                // one byte more than this, or up to the most that are taken, or beyond
                let long = r.pick(&[n + 1, MOST, MOST + 1, 2 * MOST]);
                c.more = vec![r.pick(&[0, 1, 255]); long.saturating_sub(n)];
                "longer"
            }
            _ if line => "LineString",
            _ => "MultiLineString",
        };
        (shape, c)
    }

    fn check(c: &Input) -> Result<&'static str, String> {
        let bytes = c.bytes();
        let (text, file) = model::clean_program(&bytes);
        let got = run(&bytes)?;
        alike("cleaned", (&text, file.as_deref()), &got)?;
        let Some(file) = file else {
            return Ok(if text == "refused 5\n" { "refused 5" } else { "refused 11" });
        };
        alike("cleaned once more", ("", Some(&file)), &run(&file)?)?;
        Ok(if text.is_empty() { "all kept" } else if file.len() == 9 { "none kept" } else { "some kept" })
    }

    fn smaller(c: &Input) -> Vec<Input> {
        let mut all = Vec::new();
        for k in 0..c.members.len() {
            let n = c.members[k].1.len();
            if c.members.len() > 1 {
                let mut s = c.clone();
                s.members.remove(k);
                all.push(s);
            }
            for from in [n / 2, n - 1] {
                if from > 0 {
                    let mut s = c.clone();
                    s.members[k].1.truncate(from);
                    all.push(s);
                    let mut s = c.clone();
                    s.members[k].1.drain(..n - from);
                    all.push(s);
                }
            }
        }
        all
    }

    fn show(c: &Input) -> String {
        format!("LineString {}, little {}, members {:x?}, {} bytes cut, {} more", c.line, c.little, c.members, c.cut, c.more.len())
    }
}

/// Document 02's own cases; every chain of up to four points of five kinds, as the members of one input; the longest inputs: a LineString of which all is
/// kept, whose file is 9 bytes longer, and 65,536 bytes of which all is kept, every third point is a gap, nothing is kept, or which one byte follows.
pub fn fixed() -> Vec<(&'static str, Input)> {
    use clean::{A, ABOVE, B, EDGE, NAN};
    let mut all: Vec<_> = clean::named().into_iter().filter(|m| !m.is_empty()).map(|m| ("by name", Input::whole(true, vec![m]))).collect();
    all.push(("by name", Input::whole(false, vec![])));
    all.push(("by name", Input::whole(false, clean::named().into_iter().filter(|m| !m.is_empty()).collect())));
    all.push(("every short chain", Input::whole(false, (1..=4).flat_map(clean::every_short).collect())));
    all.push(("longest", Input::whole(true, vec![[A, B].repeat(512)])));
    // 15 members of 4,087 points: 65,536 bytes
    let longest = |part: &[[u64; 2]]| Input::whole(false, (0..15).map(|k| part.iter().copied().cycle().take(if k < 7 { 273 } else { 272 }).collect()).collect());
    for part in [&[A, B][..], &[A, EDGE, NAN], &[A, A, ABOVE], &[ABOVE]] {
        let whole = longest(part);
        assert_eq!(whole.bytes().len(), MOST);
        all.push(("longest", whole));
    }
    all.push(("longest", Input { more: vec![0], ..longest(&[A, B]) }));
    all
}
