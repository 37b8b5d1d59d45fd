//! Reads a profile body, given as a line of hexadecimal, and says where it leads.

use std::process::ExitCode;

extern "C" {
    fn haulspar_decode(line: *const u8, line_len: usize, out: *mut u8, out_len: usize, count: *mut u64) -> u32;
    fn haulspar_profile(octets: *const u8, octets_len: usize, numbers: *mut u64) -> u32;
}

/// The octets that a line stands for, or the refusal's number.
fn decode(line: &str) -> Result<Vec<u8>, u32> {
    let mut octets = vec![0u8; 4096];
    let mut count = 0;
    // SAFETY: each pointer is valid for its length, and what is written overlaps nothing else.
    let answer = unsafe {
        haulspar_decode(line.as_ptr(), line.len(), octets.as_mut_ptr(), octets.len(), &mut count)
    };
    octets.truncate(count as usize);
    if answer == 0 { Ok(octets) } else { Err(answer) }
}

/// What a profile body says, as ten numbers, or the refusal's number.
fn read(octets: &[u8]) -> Result<[u64; 10], u32> {
    let mut numbers = [0; 10];
    // SAFETY: as above; the numbers are ten.
    let answer = unsafe { haulspar_profile(octets.as_ptr(), octets.len(), numbers.as_mut_ptr()) };
    if answer == 0 { Ok(numbers) } else { Err(answer) }
}

fn main() -> ExitCode {
    let Some(line) = std::env::args().nth(1) else {
        return ExitCode::from(2);
    };
    match decode(&line).and_then(|octets| read(&octets).map(|numbers| (octets, numbers))) {
        Ok((octets, n)) => {
            let from = n[3] as usize;
            let host = String::from_utf8_lossy(&octets[from..from + n[4] as usize]);
            println!("IIOP {}.{} {host}:{}, key of {} octets, {} components", n[1], n[2], n[5], n[7], n[8]);
            ExitCode::SUCCESS
        }
        Err(number) => {
            println!("refused: {number}");
            ExitCode::FAILURE
        }
    }
}
