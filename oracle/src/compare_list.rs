//! Several nets, one after another: the published `route_net_tree`, given what `MultiNetRouting::resources` collects of the nets before and the
//! other jobs' protected cells, and `materialize_multinet` over its nets, against the plain routing and laying of a list; and `route_jobs_ripup`
//! where it does the same.

use std::collections::BTreeSet;

use cases::laying::{Overlap, lay_all};
use cases::lists::{Judged, List, NetRefusal};
use cases::nets::ListAnswer;
use cases::room::Room;
use cases::sheet::{Job, TreeAnswer};
use cases::text::list_lines;
use cases::tree::{Limits, Mode, Net};
use published::multinet::{MultiNetError, MultiNetRouting, NetId, RoutedNet};
use published::port_realization::{realize_sink_endpoint, terminal_for_endpoint};
use published::routing_resources::electrical_keepout_for_wire;
use published::world::Pos;
use shapes::{lay_published, route_unripped};

use crate::compare_tree::at_limits;
use crate::published_side::{PublishedJob, cell_at, endpoint, guarded};
use crate::{Disagreement, Refusal};

/// A list's nets, laid, or its refusal; or how the published Rust and the plain routing and laying differ on it. In strict mode, which the Rust
/// lacks, the plain ones answer, and the two agree in the published mode on the same list.
pub fn check_list(case: &List) -> Result<ListAnswer, Disagreement> {
    // 1 to 9 are judged before the Rust routes; its queue and branches have no end
    if let Ok(judged) = case.judge() {
        let nets = judged.route(Limits::NONE, Mode::Published);
        let expected = nets.and_then(|nets| shown(&judged, nets, lay_all));
        let found = guarded(|| published_nets(&judged))
            .and_then(|nets| nets)
            .and_then(|nets| guarded(|| nets.and_then(|nets| shown(&judged, nets, lay_published))));
        if found.as_ref() != Ok(&expected) {
            return Err(Disagreement(format!(
                "{}plain: {expected:?}\npublished Rust: {found:?}\n",
                list_lines(case)
            )));
        }
    }
    Ok(case.plain_answer())
}

/// Whether `route_jobs_ripup` takes a list's jobs in list order and rips nothing up; or how its nets differ from those of plain routing.
pub fn check_unripped(case: &List) -> Result<bool, Disagreement> {
    let Ok(judged) = case.judge() else {
        return Ok(false);
    };
    let found = guarded(|| route_unripped(&judged.room, &judged.jobs)).map_err(Disagreement)?;
    let Some(found) = found else {
        return Ok(false);
    };
    let nets = judged.route(Limits::NONE, Mode::Published);
    let expected: Result<Vec<_>, _> =
        nets.map(|nets| nets.iter().map(|net| net.answer()).collect());
    if expected.as_ref() != Ok(&found) {
        return Err(Disagreement(format!(
            "{}plain: {expected:?}\nroute_jobs_ripup: {found:?}\n",
            list_lines(case)
        )));
    }
    Ok(true)
}

/// What both sides are compared by: the trees in list order, and each cell's kind and facing; or the net that is refused.
type Shown = Result<(Vec<TreeAnswer>, Vec<u8>, Vec<u8>), NetRefusal>;

type Laying = fn(&Room, &[(Job, Net)]) -> Result<cases::laying::LaidRoom, Overlap>;

fn shown(judged: &Judged, nets: Vec<Net>, lay: Laying) -> Shown {
    let trees = nets.iter().map(|net| net.answer()).collect();
    let list: Vec<_> = judged.jobs.iter().cloned().zip(nets).collect();
    let room = lay(&judged.room, &list).map_err(|Overlap { net, cell }| NetRefusal {
        net,
        refusal: Refusal::new(16, cell as u32),
    })?;
    Ok((trees, room.kinds, room.facings))
}

/// The nets of the published Rust in list order, or the one that it refuses.
fn published_nets(judged: &Judged) -> Result<Result<Vec<Net>, NetRefusal>, String> {
    let list = PublishedList::new(judged)?;
    match list.route()? {
        Ok(routed) => list.nets(routed).map(Ok),
        Err(refused) => Ok(Err(refused)),
    }
}

/// A judged list as the published Rust takes it.
pub struct PublishedList<'a> {
    judged: &'a Judged,
    jobs: Vec<PublishedJob>,
    /// For each net what it keeps off of the other jobs.
    protected: Vec<BTreeSet<Pos>>,
}

impl<'a> PublishedList<'a> {
    pub fn new(judged: &'a Judged) -> Result<Self, String> {
        let jobs = judged.jobs.iter();
        let nets = 0..judged.jobs.len();
        Ok(Self {
            judged,
            jobs: jobs
                .map(|job| PublishedJob::new(&judged.room, job))
                .collect(),
            protected: nets
                .map(|net| protected_by_others(&judged.jobs, net))
                .collect::<Result<_, _>>()?,
        })
    }

    /// Runs `route_net_tree` net by net, each with what `MultiNetRouting::resources` has of those before it. These nets have the repeaters of 12
    /// and 8.
    pub fn route(&self) -> Result<Result<Vec<RoutedNet>, NetRefusal>, String> {
        let mut routing = MultiNetRouting::default();
        for (net, job) in self.jobs.iter().enumerate() {
            let held = routing.resources(None);
            match job.route_beside(net as u32, &held, &self.protected[net]) {
                Ok(routed) => {
                    routing.nets.insert(NetId(net as u32), routed);
                }
                Err(MultiNetError::NoTreeConnection(pos)) => {
                    let refusal = Refusal::new(14, cell(&self.judged.room, pos)? as u32);
                    return Ok(Err(NetRefusal { net, refusal }));
                }
                Err(error) => return Err(format!("an error of another kind: {error:?}")),
            }
        }
        Ok(Ok(routing.nets.into_values().collect()))
    }

    /// Its nets by cell numbers, with the repeaters of their own limits.
    pub fn nets(&self, routed: Vec<RoutedNet>) -> Result<Vec<Net>, String> {
        let jobs = self.judged.jobs.iter();
        jobs.zip(routed)
            .map(|(job, routed)| net_of(&self.judged.room, &at_limits(job, routed)?))
            .collect()
    }
}

fn net_of(room: &Room, routed: &RoutedNet) -> Result<Net, String> {
    let cells = |list: &mut dyn Iterator<Item = &Pos>| {
        let cells: Result<Vec<usize>, String> = list.map(|pos| cell(room, *pos)).collect();
        cells
    };
    let branches = routed.branches.iter();
    Ok(Net {
        branches: branches
            .map(|branch| cells(&mut branch.iter()))
            .collect::<Result<_, _>>()?,
        occupied: cells(&mut routed.occupied.iter())?.into_iter().collect(),
        repeaters: cells(&mut routed.repeaters.iter())?.into_iter().collect(),
        most_waiting: 0,
    })
}

fn cell(room: &Room, pos: Pos) -> Result<usize, String> {
    cell_at(room, pos).ok_or(format!("{pos:?} is outside"))
}

/// As `route_jobs_ripup_with_fixed` collects them: of each other job the terminals, the sinks' approaches, and the keepouts of all these.
fn protected_by_others(jobs: &[Job], net: usize) -> Result<BTreeSet<Pos>, String> {
    let mut protected = BTreeSet::new();
    for (_, job) in jobs.iter().enumerate().filter(|(other, _)| *other != net) {
        let mut own = BTreeSet::from([
            terminal_for_endpoint(&endpoint(&job.source)).map_err(|error| error.to_string())?
        ]);
        for sink in &job.sinks {
            let ends =
                realize_sink_endpoint(&endpoint(&sink.port)).map_err(|error| error.to_string())?;
            own.extend([ends.terminal, ends.approach]);
        }
        let kept: Vec<_> = own
            .iter()
            .flat_map(|pos| electrical_keepout_for_wire(*pos))
            .collect();
        protected.extend(own);
        protected.extend(kept);
    }
    Ok(protected)
}
