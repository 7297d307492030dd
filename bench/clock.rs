// What the programs of Rust share: the processor time of a call, and a message of the folder.

extern "C" {
    fn clock_gettime(clock: i32, at: *mut [i64; 2]) -> i32;
}

/// The processor time of this process in nanoseconds.
fn now() -> f64 {
    let mut at = [0i64; 2];
    // SAFETY: a timespec of Linux with 64 bits has two numbers of 64 bits; 2 is CLOCK_PROCESS_CPUTIME_ID.
    assert_eq!(unsafe { clock_gettime(2, &mut at) }, 0);
    at[0] as f64 * 1e9 + at[1] as f64
}

/// Prints the nanoseconds of a call: the least of batches of a millisecond or of one call.
fn time(operation: &str, name: &str, milliseconds: f64, mut call: impl FnMut()) {
    let (begun, mut least, mut batch) = (now(), f64::MAX, 1u32);
    while now() - begun < milliseconds * 1e6 {
        let from = now();
        (0..batch).for_each(|_| call());
        let took = now() - from;
        least = least.min(took / f64::from(batch));
        if took < 1e6 {
            batch *= 2;
        }
    }
    println!("{operation} {name} {least:.2}");
}

/// The folder of the messages and the milliseconds for each, which are the words of each program.
fn words() -> (String, f64) {
    let words: Vec<String> = std::env::args().collect();
    (words[1].clone(), words[2].parse().expect("milliseconds"))
}

fn message(folder: &str, name: &str) -> Vec<u8> {
    std::fs::read(format!("{folder}/{name}")).expect("a message of bench/messages.c")
}
