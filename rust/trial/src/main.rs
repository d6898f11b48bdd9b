//! Runs the proved trial program on inputs at the edges and on random ones, each cut into blocks in several ways, and fails where it does
//! not write what the reference does. `trial PROGRAM`.
#![forbid(unsafe_code)]

mod cases;

use cases::{Random, cases};
use std::collections::BTreeSet;
use std::io;
use std::os::fd::OwnedFd;
use std::os::unix::net::UnixDatagram;
use std::process::{Command, ExitCode, Stdio};
use std::thread;

/// As much as the program reads at a time.
const READ_MAX: usize = 65_536;

/// The refusals that the program can give: its connection has nothing waiting between two lines, and keeps its rules.
const REFUSALS: [u8; 19] = [1, 2, 3, 4, 5, 6, 7, 8, 9, 10, 11, 12, 13, 14, 15, 23, 25, 26, 27];

/// What the program writes if its reads give these blocks. A datagram is a read, and an empty one the end of the input.
fn run(program: &str, blocks: &[&[u8]]) -> io::Result<Vec<u8>> {
    let (ours, theirs) = UnixDatagram::pair()?;
    let child = Command::new(program).stdin(Stdio::from(OwnedFd::from(theirs))).stdout(Stdio::piped()).spawn()?;
    thread::scope(|scope| {
        scope.spawn(|| {
            for block in blocks.iter().filter(|block| !block.is_empty()).chain([&&b""[..]]) {
                // The program may have ended before its input does.
                if ours.send(block).is_err() {
                    return;
                }
            }
        });
        let output = child.wait_with_output()?;
        if output.status.success() { Ok(output.stdout) } else { Err(io::Error::other(output.status.to_string())) }
    })
}

/// The input in blocks: as large as can be, of one, two or seven bytes, cut before and behind each line end, and anyhow.
fn cuttings<'i>(input: &'i [u8], random: &mut Random) -> Vec<Vec<&'i [u8]>> {
    let mut all = vec![input.chunks(READ_MAX).collect(), input.chunks(40_000).collect()];
    if input.len() < 2_000 {
        all.extend([1, 2, 7].map(|size| input.chunks(size).collect::<Vec<_>>()));
    }
    let lines = input.split_inclusive(|&byte| byte == b'\n').flat_map(|line| line.chunks(READ_MAX));
    all.push(lines.flat_map(|line| [&line[..line.len() - 1], &line[line.len() - 1..]]).collect());
    let (mut anyhow, mut rest) = (Vec::new(), input);
    while !rest.is_empty() {
        let (block, behind) = rest.split_at(random.between(1, rest.len().min(READ_MAX)));
        anyhow.push(block);
        rest = behind;
    }
    all.push(anyhow);
    all
}

/// Compares on every case; answers how many runs there were, and which refusals.
fn compare(run: impl Fn(&[&[u8]]) -> io::Result<Vec<u8>>) -> Result<(usize, BTreeSet<u8>), String> {
    let mut random = Random::new(1);
    let (mut runs, mut refused) = (0, BTreeSet::new());
    for input in cases(&mut random) {
        let expected = reference::trial::run(&input);
        if let Some(number) =
            expected.strip_suffix(b"\n").and_then(|output| output.rsplit(|&byte| byte == b'\n').next())
            && number.len() == 2
        {
            let number = str::from_utf8(number).ok().and_then(|digits| u8::from_str_radix(digits, 16).ok());
            refused.extend(number);
        }
        for blocks in cuttings(&input, &mut random) {
            let output = run(&blocks).map_err(|error| error.to_string())?;
            if output != expected {
                let [input, output, expected] = [&input, &output, &expected].map(|bytes| bytes.escape_ascii());
                let sizes: Vec<usize> = blocks.iter().map(|block| block.len()).collect();
                return Err(format!("{input}\nin blocks of {sizes:?}\n  program:   {output}\n  reference: {expected}"));
            }
            runs += 1;
        }
    }
    Ok((runs, refused))
}

fn main() -> ExitCode {
    let Some(program) = std::env::args().nth(1) else {
        println!("trial PROGRAM");
        return ExitCode::FAILURE;
    };
    match compare(|blocks| run(&program, blocks)) {
        Ok((runs, refused)) => {
            println!("{runs} runs, refusals {refused:?}");
            if refused.iter().eq(&REFUSALS) { ExitCode::SUCCESS } else { ExitCode::FAILURE }
        }
        Err(difference) => {
            println!("DIFFERENT\n{difference}");
            ExitCode::FAILURE
        }
    }
}

#[cfg(test)]
mod tests {
    use super::*;

    fn whole(blocks: &[&[u8]]) -> Vec<u8> {
        reference::trial::run(&blocks.concat())
    }

    #[test]
    fn the_reference_agrees_with_itself() {
        let (_, refused) = compare(|blocks| Ok(whole(blocks))).unwrap();
        assert!(refused.iter().eq(&REFUSALS), "{refused:?}");
    }

    #[test]
    fn a_last_line_that_is_dropped_is_found() {
        let dropped = |blocks: &[&[u8]]| {
            let input = blocks.concat();
            let end = input.iter().rposition(|&byte| byte == b'\n').map_or(0, |at| at + 1);
            Ok(reference::trial::run(&input[..end]))
        };
        assert!(compare(dropped).is_err());
    }

    #[test]
    fn short_answers_that_are_never_written_are_found() {
        let swallowed = |blocks: &[&[u8]]| {
            let output = whole(blocks);
            Ok(if output.len() <= 9 { Vec::new() } else { output })
        };
        assert!(compare(swallowed).is_err());
    }

    /// 1A and 1B are 26 and 27 as the program writes them.
    #[test]
    fn kind_and_range_exchanged_are_found() {
        let exchanged = |blocks: &[&[u8]]| {
            let mut output = whole(blocks);
            let digit = output.len().saturating_sub(2);
            match &output[digit.saturating_sub(2)..] {
                b"\n1A\n" => output[digit] = b'B',
                b"\n1B\n" => output[digit] = b'A',
                _ => {}
            }
            Ok(output)
        };
        assert!(compare(exchanged).is_err());
    }

    #[test]
    fn a_line_cut_at_a_block_is_found() {
        let cut = |blocks: &[&[u8]]| Ok(reference::trial::run(&blocks.join(&b'\n')));
        assert!(compare(cut).is_err());
    }

    #[test]
    fn one_character_too_few_is_found() {
        let short = |blocks: &[&[u8]]| {
            let input = blocks.concat();
            let lines = input.split_inclusive(|&byte| byte == b'\n');
            let held = lines.flat_map(|line| match line.strip_suffix(b"\n") {
                Some(line) => [&line[..line.len().min(40_000)], b"\n"].concat(),
                None => line[..line.len().min(40_000)].to_vec(),
            });
            Ok(reference::trial::run(&held.collect::<Vec<_>>()))
        };
        assert!(compare(short).is_err());
    }
}
