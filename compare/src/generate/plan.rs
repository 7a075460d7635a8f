//! What kind of requests a script is made of.

use crate::random::Random;

#[derive(Clone, Copy)]
pub enum QuotaStyle {
    Ample,
    Tight,
    /// About what one owner can hold of the arena.
    Fitting,
}

/// How many lines in a hundred are of a kind.
#[derive(Clone, Copy)]
pub struct Percent {
    /// Frees among allocs and frees.
    pub free: u64,
    /// Allocs with an alignment above a granule.
    pub aligned: u64,
    /// Allocs of a size that a hole or a quota suggests.
    pub aimed: u64,
    pub quota: u64,
    pub make: u64,
    /// Numbers that are replaced by a hostile one.
    pub hostile: u64,
    pub damaged: u64,
    pub long: u64,
    /// Lines moved to where a block of input ends.
    pub straddling: u64,
}

#[derive(Clone, Copy)]
pub struct Plan {
    pub lines: u64,
    pub granules: u64,
    pub rows: u64,
    pub owners: u64,
    pub quotas: QuotaStyle,
    /// Longest usual block, in granules.
    pub block: u64,
    pub percent: Percent,
}

type Shape = fn(&mut Random) -> Plan;

impl Plan {
    pub fn draw(random: &mut Random) -> Plan {
        let shapes: [(u64, Shape); 10] = [
            (60, small),
            (44, tight_table),
            (32, tight_quotas),
            (16, large),
            (16, makes),
            (16, damaged),
            (8, long_lines),
            (6, straddling),
            (1, thousands),
            (3, crowded),
        ];
        random.weighted(&shapes)(random)
    }
}

fn small(random: &mut Random) -> Plan {
    Plan {
        lines: random.range(10, 60),
        granules: random.pick(&[1, 2, 8, 24, 100]) + random.below(16),
        rows: random.pick(&[24, 64, 512]),
        owners: random.range(1, 3),
        quotas: random.pick(&[QuotaStyle::Ample, QuotaStyle::Fitting]),
        block: random.range(1, 6),
        percent: Percent {
            free: random.range(20, 45),
            aligned: random.range(0, 60),
            aimed: random.range(0, 50),
            quota: 2,
            make: 1,
            hostile: 2,
            damaged: 1,
            long: 1,
            straddling: 0,
        },
    }
}

fn tight_table(random: &mut Random) -> Plan {
    Plan {
        granules: random.range(4, 60),
        rows: random.range(1, 12),
        quotas: QuotaStyle::Ample,
        ..small(random)
    }
}

fn tight_quotas(random: &mut Random) -> Plan {
    Plan {
        granules: random.range(4, 64),
        rows: random.pick(&[4, 16, 64, 512]),
        owners: random.range(1, 8),
        quotas: QuotaStyle::Tight,
        ..small(random)
    }
}

fn large(random: &mut Random) -> Plan {
    Plan {
        granules: random.pick(&[256, 1_000, 1_024, 4_095, 4_096]),
        rows: random.pick(&[8, 32, 511, 512]),
        owners: random.range(1, 8),
        block: random.pick(&[8, 64, 300]),
        ..small(random)
    }
}

fn makes(random: &mut Random) -> Plan {
    let base = small(random);
    Plan {
        percent: Percent {
            quota: 15,
            make: 15,
            hostile: 6,
            ..base.percent
        },
        ..base
    }
}

fn damaged(random: &mut Random) -> Plan {
    let base = small(random);
    Plan {
        percent: Percent {
            damaged: 40,
            hostile: 10,
            ..base.percent
        },
        ..base
    }
}

fn long_lines(random: &mut Random) -> Plan {
    let base = small(random);
    Plan {
        percent: Percent {
            long: 25,
            ..base.percent
        },
        ..base
    }
}

fn straddling(random: &mut Random) -> Plan {
    let base = small(random);
    Plan {
        lines: random.range(3, 20),
        percent: Percent {
            straddling: 40,
            long: 10,
            ..base.percent
        },
        ..base
    }
}

fn thousands(random: &mut Random) -> Plan {
    let base = large(random);
    Plan {
        lines: random.range(1_000, 4_000),
        block: random.pick(&[1, 4, 16, 64]),
        percent: Percent {
            free: random.range(40, 50),
            aimed: 5,
            quota: 1,
            make: 0,
            hostile: 1,
            ..base.percent
        },
        ..base
    }
}

/// As many blocks as a quota or a table can hold.
fn crowded(random: &mut Random) -> Plan {
    let base = thousands(random);
    Plan {
        granules: random.range(1_500, 4_096),
        rows: random.pick(&[255, 256, 257, 511, 512]),
        owners: random.pick(&[1, 2, 8]),
        quotas: QuotaStyle::Ample,
        block: random.range(1, 3),
        percent: Percent {
            free: random.range(15, 40),
            aligned: random.pick(&[0, 20]),
            aimed: 0,
            ..base.percent
        },
        ..base
    }
}
