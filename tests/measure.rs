// Runs a command some times, and prints the least seconds of processor time that it took and the most kilobytes that it had.
//   rustc -O measure.rs && ./measure RUNS STATUS COMMAND ARGUMENT..
// STATUS is the exit status that each run must have. What the command writes is thrown away.
use std::env;
use std::process::{Command, Stdio, exit};

/// What the system counts of a process that has ended (getrusage(2), on Linux of 64 bits).
#[repr(C)]
#[derive(Default)]
struct Usage {
    user: [i64; 2],
    system: [i64; 2],
    kilobytes: i64,
    others: [i64; 13],
}

extern "C" {
    fn wait4(process: i32, status: *mut i32, options: i32, usage: *mut Usage) -> i32;
}

fn fail(why: &str) -> ! {
    eprintln!("measure: {why}");
    exit(1)
}

fn once(command: &[String], wanted: i32) -> (f64, i64) {
    let mut asked = Command::new(&command[0]);
    asked.args(&command[1..]);
    asked.stdin(Stdio::null()).stdout(Stdio::null()).stderr(Stdio::null());
    let Ok(started) = asked.spawn() else {
        fail(&format!("{} can't be run", command[0]));
    };
    let (mut status, mut usage) = (0, Usage::default());
    let process = started.id() as i32;
    if unsafe { wait4(process, &mut status, 0, &mut usage) } != process {
        fail("the command can't be waited for");
    }
    if status & 127 != 0 {
        fail(&format!("{} was ended by signal {}", command.join(" "), status & 127));
    }
    if status != wanted << 8 {
        fail(&format!("{} ended with {}, and not {wanted}", command.join(" "), status >> 8));
    }
    let of = |time: [i64; 2]| time[0] as f64 + time[1] as f64 / 1e6;
    (of(usage.user) + of(usage.system), usage.kilobytes)
}

fn main() {
    let words: Vec<String> = env::args().skip(1).collect();
    let (Some(Ok(runs)), Some(Ok(status))) = (words.first().map(|it| it.parse::<u32>()), words.get(1).map(|it| it.parse()))
    else {
        fail("measure RUNS STATUS COMMAND ARGUMENT..");
    };
    if words.len() < 3 {
        fail("measure RUNS STATUS COMMAND ARGUMENT..");
    }
    let (mut least, mut most) = (f64::MAX, 0);
    for _ in 0..runs {
        let (seconds, kilobytes) = once(&words[2..], status);
        (least, most) = (least.min(seconds), most.max(kilobytes));
    }
    println!("{least:.6} {most}");
}
