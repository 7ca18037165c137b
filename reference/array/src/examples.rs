//! Fixed scenarios with answers that were worked out by hand.

pub struct Example {
    pub name: &'static str,
    pub scenario: String,
    pub answers: Vec<String>,
}

impl Example {
    fn new(name: &'static str, settings: &str) -> Example {
        Example { name, scenario: settings.to_string(), answers: Vec::new() }
    }

    fn say(&mut self, command: &str, answer: &str) {
        self.scenario += &format!("{command}\n");
        self.answers.push(answer.to_string());
    }

    /// Lines of the form `command => answer`.
    fn say_all(&mut self, lines: &str) {
        for line in lines.lines().map(str::trim).filter(|line| !line.is_empty()) {
            let (command, answer) = line.split_once(" => ").expect("a line has a command and an answer");
            self.say(command, answer);
        }
    }

    fn start(&mut self) {
        self.say_all("power-on => down\n format => formatted\n open => opened\n finish => ready read 0 mended 0");
    }

    /// Writes the first block of each stripe of three members; stripe s gets the byte s + 1.
    fn write_stripes(&mut self, stripes: std::ops::Range<usize>) {
        for stripe in stripes {
            self.say(&format!("write {} {}", 2 * stripe, stripe + 1), "buffered");
        }
    }

    fn say_for(&mut self, stripes: std::ops::Range<usize>, command: &str, answer: impl Fn(usize) -> String) {
        for stripe in stripes {
            self.say(command, &answer(stripe));
        }
    }
}

pub fn all() -> Vec<Example> {
    vec![
        slots_run_out(),
        mark_at_63(),
        barrier_at_64(),
        fresh_at_64(),
        fresh_is_cut(),
        held_stores_are_barred_before_fresh(),
        block_16("block 16 by layout 0", 0, 2, 1),
        block_16("block 16 by layout 2", 2, 1, 2),
        block_16("block 16 by layout 3", 3, 0, 2),
        tokens_by_age(),
        newest_of_a_kind(),
        forms_of_lines(),
    ]
}

fn slots_run_out() -> Example {
    let mut example = Example::new("32 writes pass, a 33rd does not", "members 4 16\n");
    example.start();
    for block in 0..32 {
        example.say(&format!("write {block} {}", block + 1), "buffered");
    }
    example.say_all(
        "show => state ready wrong 0 named 0 free 0
         write 32 7 => refused 5 array 32
         write 31 99 => buffered
         read 31 => fill 99
         read 32 => fill 0
         write 32 7 => refused 5 array 32
         write 48 7 => refused 7 array 48
         destage => changed 1
         show => state ready wrong 0 named 11 free 0
         write 31 98 => refused 5 array 31
         read 31 => fill 99
         destage => moved 0
         show => state ready wrong 0 named 11 free 3
         write 31 98 => buffered
         read 31 => fill 98
         write 32 7 => buffered
         write 33 8 => buffered
         write 34 9 => refused 5 array 34
         flush => flushed 12 puts 1
         show => state ready wrong 0 named 12 free 32
         read 31 => fill 98
         read 33 => fill 8
         close => closed
         show => state down wrong 0 named 0 free 32",
    );
    example
}

/// Brings what is named to 32 and then to `named` stripes, all of them written and barred.
fn name(example: &mut Example, named: usize) {
    example.start();
    example.write_stripes(0..32);
    example.say("flush", "flushed 32 puts 1");
    example.write_stripes(32..named);
    example.say("flush", &format!("flushed {} puts 1", named - 32));
    example.say("show", &format!("state ready wrong 0 named {named} free 32"));
    example.write_stripes(named..named + 1);
}

/// No store or barrier of the members comes before the mark.
fn mark_at_63() -> Example {
    let mut example = Example::new("63 named and one new: mark", "members 3 80\n");
    name(&mut example, 63);
    example.say_all(
        "cut members 0 => ok
         destage => changed 1
         show => state ready wrong 0 named 64 free 31
         destage => refused 1 members 0 63
         show => state fallen wrong 0 named 64 free 31
         destage => refused 3 array fallen
         power-on => down
         show => state down wrong 0 named 64 free 32",
    );
    example
}

/// The first device call is a barrier of the members, and the log is as it was.
fn barrier_at_64() -> Example {
    let mut example = Example::new("64 named and one new: a barrier", "members 3 80\n");
    name(&mut example, 64);
    example.say_all(
        "cut members 0 => ok
         cut log 0 => ok
         destage => refused 1 members
         show => state fallen wrong 0 named 64 free 31
         power-on => down
         show => state down wrong 0 named 64 free 32",
    );
    example
}

fn fresh_at_64() -> Example {
    let mut example = Example::new("64 named and one new: fresh", "members 3 80\n");
    name(&mut example, 64);
    example.say_all(
        "cut members 1 => ok
         destage => changed 1
         show => state ready wrong 0 named 1 free 31
         destage => refused 1 members 2 64
         show => state fallen wrong 0 named 1 free 31
         power-on => down
         open => opened
         finish => refused 6 array 64
         open => opened
         step => stripe 64 right
         step => none left
         finish => ready read 1 mended 0
         show => state ready wrong 0 named 0 free 32",
    );
    example
}

/// Versions 1 to 3 lie in the slots 1 to 3; the fresh goes to slot 4.
fn fresh_is_cut() -> Example {
    let mut example = Example::new("64 named and one new: a cut fresh", "members 3 80\nlog ring 1 8\n");
    name(&mut example, 64);
    example.say_all(
        "cut members 1 => ok
         cut log 0 => ok
         destage => refused 1 log-store 0 4
         show => state fallen wrong 0 named - free 31
         cut log 9 => ok
         show => state fallen wrong 0 named - free 31
         power-on => down
         show => state down wrong 0 named 64 free 32",
    );
    example
}

/// Eight stores are held, those of the stripes 60 to 63. The barrier passes the data of stripe 60 down and is cut at its
/// parity. A fresh before the barrier would have dropped the name of that stripe.
fn held_stores_are_barred_before_fresh() -> Example {
    let mut example = Example::new("64 named and one new: held stores", "members 3 80\nbuffer members\n");
    example.start();
    for half in [0..32, 32..64] {
        example.write_stripes(half.clone());
        example.say("destage", "changed 1");
        example.say_for(half, "destage", |stripe| format!("moved {stripe}"));
    }
    example.write_stripes(64..65);
    example.say_all("cut members 1 => ok\n destage => refused 1 members 2 60\n show => state fallen wrong 0 named 64 free 31");
    example.say_all("power-on => down\n show => state down wrong 1 named 64 free 32\n open => opened");
    example.say_for(0..60, "step", |stripe| format!("stripe {stripe} right"));
    example.say("step", "stripe 60 mended");
    example.say_for(61..64, "step", |stripe| format!("stripe {stripe} right"));
    example.say_all(
        "step => none left
         finish => ready read 64 mended 1
         show => state ready wrong 0 named 0 free 32
         read 118 => fill 60
         read 120 => fill 61
         read 122 => fill 0
         read 128 => fill 0",
    );
    example
}

/// Block 16 of 4 members: stripe 5, position 1. Cuts show on which member it lies and on which one its parity.
fn block_16(name: &'static str, qualifier: usize, data: usize, parity: usize) -> Example {
    let mut example = Example::new(name, &format!("layout {qualifier}\n"));
    example.start();
    example.say_all("write 16 1 => buffered\n destage => changed 1\n cut members 0 => ok");
    example.say("destage", &format!("refused 1 members {data} 5"));
    example.say_all("power-on => down\n open => opened\n step => stripe 5 right\n finish => ready read 1 mended 0");
    example.say_all("write 16 2 => buffered\n destage => changed 1\n cut members 1 => ok");
    example.say("destage", &format!("refused 1 members {parity} 5"));
    example.say_all("show => state fallen wrong 1 named 1 free 31\n power-on => down");
    example.say(&format!("open-short {data}"), "short");
    example.say_all("read-short 16 => refused 9 array 5\n read-short 15 => fill 0\n give-up => given up");
    example.say_all("open => opened\n cut members 0 => ok");
    example.say("step", &format!("refused 1 members {parity} 5"));
    example.say_all("power-on => down\n open => opened\n step => stripe 5 mended\n finish => ready read 1 mended 1");
    example.say_all("read 16 => fill 2\n close => closed");
    example.say(&format!("open-short {data}"), "short");
    example.say("read-short 16", "fill 2");
    example
}

fn tokens_by_age() -> Example {
    let mut example = Example::new("tokens by age", "members 3 4\nlog flag 1 1\n");
    example.say_all(
        "step => no token
         give-up => no token
         open => refused 3 array fallen
         power-on => down
         open => refused 4 array
         open-short 3 => refused 10 array 3
         open-short 2 => refused 4 array
         format => formatted
         open => opened
         write 0 1 => no token
         power-on => down
         step => refused 3 array down
         finish => refused 3 array down
         open-short 1 => short
         step => refused 3 array short
         read-short 8 => refused 7 array 8
         read-short 7 => fill 0
         give-up => given up
         read-short 7 => no token
         step => refused 3 array down
         open => opened
         finish => ready read 0 mended 0
         finish => refused 3 array ready
         write 1 5 => buffered
         destage => changed 1
         show => state ready wrong 0 named 4 free 31
         give-up => given up
         show => state down wrong 0 named 4 free 32
         write 1 5 => no token
         open => opened
         finish => refused 6 array 0
         show => state down wrong 0 named 4 free 32
         give-up => given up
         give-up => no token",
    );
    example
}

/// Tokens by age after the last finish: permit, ticket, permit, permit.
fn newest_of_a_kind() -> Example {
    let mut example = Example::new("the newest token of a kind is taken", "members 3 4\n");
    example.start();
    example.say_all(
        "power-on => down
         open => opened
         power-on => down
         open => opened
         finish => ready read 0 mended 0
         power-on => down
         open => opened
         finish => ready read 0 mended 0
         give-up => given up
         give-up => given up
         step => refused 3 array down
         write 0 1 => refused 3 array down
         give-up => given up
         step => no token
         close => refused 3 array down
         give-up => given up
         close => no token",
    );
    example
}

fn forms_of_lines() -> Example {
    let settings = "# settings\n\nlog ring 1 1  # too small\nmembers 9 3\n";
    let mut example = Example::new("forms of lines", settings);
    example.say_all(
        "power-on# no space => refused 2 log 1 1
         show   # three spaces => state fallen wrong 0 named - free 32
         format => refused 3 array fallen",
    );
    example.scenario += "   # line 8 is passed over\nshow \nshow\n";
    example.answers.push("bad 9".to_string());
    example
}
