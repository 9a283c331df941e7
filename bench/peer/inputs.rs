//! The inputs of the jobs, as in `crates/tk_bench/src/inputs.rt`.

pub const OPENING: u64 = 12_345;

/// The number of commands in the script of a trace.
pub const COMMANDS: u64 = 1_000;

const FACTOR: u64 = 6364136223846793005;

/// Pseudo-random stamps within the 275 seconds after the opening.
pub fn stamps(count: usize) -> Vec<u64> {
    stamps_within(count, 26, 1 << 38)
}

/// Pseudo-random stamps within the 12 hours after the opening.
pub fn far_stamps(count: usize) -> Vec<u64> {
    stamps_within(count, 18, 43_200_000_000_000)
}

fn stamps_within(count: usize, bits: u32, span: u64) -> Vec<u64> {
    let mut state = 88172645463325252u64;
    let next = |_| {
        state = state
            .wrapping_mul(FACTOR)
            .wrapping_add(1442695040888963407);
        OPENING + (state >> bits) % span
    };
    (0..count).map(next).collect()
}

/// Updates 10 ns apart, each followed by a read of the clock, if there is one.
pub fn script(updates: u64, clock: Option<&str>) -> Vec<u8> {
    let mut script = "open,64,16777216,24,0,1700000000,0\n".to_string();
    for n in 0..updates {
        let reading = n * 10;
        script += &format!("update,{reading}\n");
        if let Some(clock) = clock {
            script += &format!("get,{},{clock}\n", reading + 5);
        }
    }
    script.into_bytes()
}

/// The fronts of a stamp file.
#[derive(Clone, Copy)]
pub enum Fronts {
    Equal,
    Thousands,
    Tens,
    Ones,
    Random,
}

impl Fronts {
    fn of_stamp(self, n: u64) -> u64 {
        match self {
            Fronts::Equal => COMMANDS,
            Fronts::Thousands => n / 1_000,
            Fronts::Tens => n / 10 % COMMANDS,
            Fronts::Ones => n % COMMANDS,
            Fronts::Random => {
                let mixed = n.wrapping_mul(FACTOR);
                ((mixed ^ (mixed >> 32)).wrapping_mul(FACTOR) >> 32) % COMMANDS
            }
        }
    }
}

/// A stamp file with such fronts. The stamps rise by 997 cycles.
pub fn stamp_file(count: u64, fronts: Fronts) -> Vec<u8> {
    let lines = (0..count).map(|n| format!("{},{}\n", fronts.of_stamp(n), n * 997));
    lines.collect::<String>().into_bytes()
}
