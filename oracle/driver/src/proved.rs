//! The proved search, the plain engine and the proved tree, through the wrapper of bindings/rust, and memory of any lengths for them.

use checks::{config_of, dirty_search, dirty_tree, dirty_tree_why, dirty_why, room_of};
use dustroute::lent::{PlainMemory, SearchMemory, TreeMemory, TreeWhyMemory, WhyMemory};
use oracle::Search;

/// Memory of a search of such lengths, with `byte` in every byte. A place of the queue takes two numbers.
pub fn search_memory(cells: usize, queue: usize, values: usize, byte: u8) -> SearchMemory {
    let memory = SearchMemory {
        queue: vec![0; queue],
        values: vec![0; values],
        ..SearchMemory::new(cells, 0)
    };
    dirty_search(memory, byte)
}

/// The memory of a search, and two outputs of such lengths for its reason, with `byte` in every byte.
pub fn why_memory(search: SearchMemory, reached: usize, walls: usize, byte: u8) -> WhyMemory {
    let memory = WhyMemory {
        search,
        reached: vec![0; reached],
        walls: vec![0; walls],
    };
    dirty_why(memory, byte)
}

/// Memory of a tree of such lengths, with `byte` in every byte.
pub fn tree_memory(
    cells: usize,
    branch: usize,
    queue: usize,
    values: usize,
    byte: u8,
) -> TreeMemory {
    let memory = TreeMemory {
        queue: vec![0; queue],
        values: vec![0; values],
        ..TreeMemory::new(cells, 0, branch)
    };
    dirty_tree(memory, byte)
}

/// The memory of a tree, and three outputs of such lengths for its reason, with `byte` in every byte.
pub fn tree_why_memory(tree: TreeMemory, outputs: [usize; 3], byte: u8) -> TreeWhyMemory {
    let [reached, walls, causes] = outputs.map(|length| vec![0; length]);
    let memory = TreeWhyMemory {
        tree,
        reached,
        walls,
        causes,
    };
    dirty_tree_why(memory, byte)
}

pub fn search(case: &Search, memory: &mut SearchMemory) -> u32 {
    memory.call(
        room_of(case.sides),
        config_of(&case.config),
        &case.kinds,
        case.start as usize,
        case.goal as usize,
    )
}

pub fn why(case: &Search, memory: &mut WhyMemory) -> u32 {
    memory.call(
        room_of(case.sides),
        config_of(&case.config),
        &case.kinds,
        case.start as usize,
        case.goal as usize,
    )
}

pub fn plain(case: &Search, memory: &mut PlainMemory) -> u32 {
    memory.call(
        room_of(case.sides),
        config_of(&case.config).costs(),
        &case.kinds,
        case.start as usize,
        case.goal as usize,
    )
}
