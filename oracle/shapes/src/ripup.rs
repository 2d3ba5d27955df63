//! The jobs of a list as `route_jobs_ripup` takes them, where it does what a list of nets does.

use cases::room::{Config, Place, Room};
use cases::sheet::{Job, TreeAnswer};

use crate::laying::{circuit, endpoint};
use crate::multinet::{NetId, RoutedNet, RoutingJob, route_jobs_ripup};
use crate::routing::RouterConfig;
use crate::world::Pos;

/// The trees of `route_jobs_ripup` in list order. None where it would take another order, or has no place for what the jobs carry (lists of
/// their own, limits, several configs), and where it rips something up or gives up. Which nets it accepts hangs on the behaviour of blocks, which a
/// stand-in gives here; what an accepted net is like doesn't.
pub fn route_unripped(room: &Room, jobs: &[Job]) -> Option<Vec<TreeAnswer>> {
    let first = jobs.first()?;
    let has_place = |job: &Job| {
        let lists = [
            &job.conductors,
            &job.clearances,
            &job.terminals,
            &job.reserved,
        ];
        lists.iter().all(|list| list.is_empty())
            && job.has_usual_limits()
            && job.config == first.config
    };
    let is_in_order = jobs.is_sorted_by_key(|job| std::cmp::Reverse(job.sinks.len()));
    if !is_in_order || !jobs.iter().all(has_place) {
        return None;
    }
    let asked = jobs.iter().enumerate().map(|(number, job)| RoutingJob {
        id: NetId(number as u32),
        source: endpoint(&job.source),
        sinks: job.sinks.iter().map(|sink| endpoint(&sink.port)).collect(),
    });
    let circuit = circuit(room, &first.blocks);
    let config = router_config(&first.config);
    let routed = route_jobs_ripup(&circuit, asked.collect(), config, jobs.len(), 1).ok()?;
    let nets = routed.routing.nets.values();
    (routed.events.is_empty() && nets.len() == jobs.len())
        .then(|| nets.map(|net| tree(room, net)).collect())
}

fn router_config(config: &Config) -> RouterConfig {
    RouterConfig {
        max_nodes: config.node_limit as usize,
        horizontal_cost: config.horizontal,
        stair_cost: config.stair,
        new_support_cost: config.support,
    }
}

fn tree(room: &Room, net: &RoutedNet) -> TreeAnswer {
    let cell = |pos: &Pos| {
        let cell = room.cell(Place::new(pos.x, pos.y, pos.z));
        cell.expect("nets are inside") as u16
    };
    TreeAnswer::Tree {
        branches: net
            .branches
            .iter()
            .map(|branch| branch.iter().map(cell).collect())
            .collect(),
        occupied: net.occupied.len() as u32,
        repeaters: net.repeaters.iter().map(cell).collect(),
    }
}
