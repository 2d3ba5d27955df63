//! The two functions of `multinet.rs` that plan repeaters. They are private there, so the unchanged file is taken in once more, beside
//! wrappers that are public.

include!(env!("MULTINET"));

/// `plan_repeaters`: the runs of all sinks, by their terminals.
pub fn runs(
    source: Pos,
    sinks: &[Pos],
    branches: &[Vec<Pos>],
    forbidden: &BTreeSet<Pos>,
    run: usize,
) -> BTreeSet<Pos> {
    plan_repeaters(source, sinks, branches, forbidden, run)
}

/// `reinforce_wire_sink_tails`, asked for one sink with its own tail limit: its loop carries nothing from sink to sink but the repeaters.
pub fn tail(
    source: Pos,
    sink: &Endpoint,
    branches: &[Vec<Pos>],
    forbidden: &BTreeSet<Pos>,
    repeaters: &mut BTreeSet<Pos>,
    tail: usize,
) {
    let sinks = std::slice::from_ref(sink);
    reinforce_wire_sink_tails(source, sinks, branches, forbidden, repeaters, tail);
}
