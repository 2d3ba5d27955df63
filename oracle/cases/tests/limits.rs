//! Sheets at any limits, and the versions as values: what each has room for, in bytes and in ranges.

use cases::examples;
use cases::generate::{Profile, limit_sheets, set_limits};
use cases::parts::{Parts, PartsAnswer};
use cases::rng::Rng;
use cases::room::{Config, MOST_CELLS, Ranges};
use cases::samples::{block, default_job, wire};
use cases::sheet::Job;
use cases::version::Version;

#[test]
fn examples_of_limits() {
    for (name, case, answer) in examples::limits() {
        assert_eq!(case.plain_answer(), answer, "{name}");
    }
}

/// Where each version has its lists, and how long its records are.
#[test]
fn versions_by_their_bytes() {
    let told = |version: Version| {
        [
            version.lists_at(),
            version.block_bytes(),
            version.position_bytes(),
            version.source_bytes(),
            version.sink_bytes(),
            version.size(0, 0, 0),
        ]
    };
    assert_eq!(told(Version::ONE), [24, 7, 3, 5, 5, 40]);
    assert_eq!(told(Version::TWO), [25, 7, 3, 5, 6, 41]);
    assert_eq!(told(Version::THREE), [28, 10, 6, 8, 9, 47]);
}

/// A job with a record in every list, in a version.
fn full(version: Version) -> Job {
    let mut job = default_job([5, 2, 3], &[wire([4, 0, 1], 0), wire([2, 0, 2], 0)]);
    job.version = version;
    job.blocks = vec![block(258, [3, 0, 0], 1)];
    job.conductors = vec![[4, 1, 0]];
    job.clearances = vec![[0, 1, 0]];
    job.terminals = vec![[1, 1, 0]];
    job.reserved = vec![[2, 1, 0], [2, 1, 0]];
    job.source = wire([0, 0, 1], 0);
    if version.limits {
        job.run = 4;
        job.sinks[1].tail = 15;
    }
    job
}

/// What is written in a version is read as that version, and as no other.
#[test]
fn each_version_is_read_back() {
    for version in Version::KNOWN {
        let job = full(*version);
        let bytes = job.bytes();
        assert_eq!(bytes.len(), version.size(1, 5, 2));
        assert_eq!(Job::read_of(Version::KNOWN, &bytes), Ok(job));
        for other in Version::KNOWN.iter().filter(|other| *other != version) {
            let mut bytes = bytes.clone();
            bytes[0] = other.number;
            assert!(Job::read_of(Version::KNOWN, &bytes).is_err());
        }
    }
}

fn judged(job: &Job) -> u8 {
    let judged = job.judge(usize::MAX);
    judged.err().map_or(0, |refusal| refusal.number)
}

/// A hall of 300 by 8 by 27, and what is one too many of each range.
#[test]
fn version_3_has_wider_ranges() {
    let hall = |sides, config| Job {
        version: Version::THREE,
        config,
        ..default_job(sides, &[])
    };
    let dear = |cost| Config {
        node_limit: 800_000,
        horizontal: cost,
        stair: cost,
        support: cost,
    };
    let usual = Config::DEFAULT;
    let more_nodes = Config {
        node_limit: 800_001,
        ..usual
    };
    for (sides, config, number) in [
        ([300, 8, 27], usual, 0),
        ([300, 218, 1], usual, 0),
        ([256, 256, 1], usual, 0),
        ([301, 1, 1], usual, 2),
        ([300, 219, 1], usual, 2),
        ([1, 1, 1], dear(1_000_000), 0),
        ([1, 1, 1], dear(1_000_001), 3),
        ([1, 1, 1], more_nodes, 3),
        // 1,650 cells at 2,000,000 are the product, 1,651 are too many
        ([150, 11, 1], dear(1_000_000), 0),
        ([13, 127, 1], dear(1_000_000), 3),
    ] {
        let job = hall(sides, config);
        assert_eq!(judged(&job), number, "{sides:?} {config:?}");
        let again = Job::read_of(Version::KNOWN, &job.bytes());
        assert_eq!(again, Ok(job));
    }
    assert_eq!(Ranges::OLD.product, 3_276_800_000);
}

/// The lowest version that holds a job: by the limits, then by sides, node limit and costs.
#[test]
fn the_lowest_version() {
    let lowest = |change: fn(&mut Job)| {
        let mut job = full(Version::ONE);
        change(&mut job);
        let two = &Version::KNOWN[..2];
        [two, Version::KNOWN].map(|known| job.lowest(known).number)
    };
    assert_eq!(lowest(|_| ()), [1, 1]);
    assert_eq!(lowest(|job| job.run = 11), [2, 2]);
    assert_eq!(lowest(|job| job.sinks[1].tail = 9), [2, 2]);
    assert_eq!(lowest(|job| job.sides[0] = 65), [1, 3]);
    assert_eq!(lowest(|job| job.sides = [64, 5, 64]), [1, 3]);
    assert_eq!(lowest(|job| job.config.node_limit = 200_001), [1, 3]);
    assert_eq!(lowest(|job| job.config.stair = 100_001), [1, 3]);
    assert_eq!(lowest(|job| (job.sides[0], job.run) = (65, 11)), [2, 3]);
}

/// A job that is held by a lower version goes from version 3 to it, and back: the same job.
#[test]
fn three_versions_go_round() {
    let mut rng = Rng::new(3);
    let mut accepted = 0;
    for case in limit_sheets(12, 2_000, Profile::Tiny) {
        let Ok((job, _)) = case.0.judge(MOST_CELLS) else {
            continue;
        };
        let mut wide = Job {
            version: Version::THREE,
            ..job
        };
        if rng.percent(30) {
            set_limits(&mut rng, &mut wide);
        }
        if rng.percent(30) {
            wide.config.node_limit = 200_001;
        }
        assert_eq!(judged(&wide), 0);
        let PartsAnswer::Sheet(bytes) = Parts {
            lent: 60_000,
            ..Parts::of(&wide)
        }
        .plain_answer_of(Version::KNOWN) else {
            panic!("an accepted job is refused");
        };
        let version = wide.lowest(Version::KNOWN);
        assert_eq!(bytes[0], version.number);
        assert_eq!(
            Job::read_of(Version::KNOWN, &bytes),
            Ok(Job { version, ..wide })
        );
        accepted += 1;
    }
    assert!(accepted > 1_000, "{accepted}");
}
