//! The death from Rust: a safe wrapper, whose drop ends the world. It stays on its thread.

use std::ptr::null_mut;

#[repr(C)]
struct Handle {
    at: *mut u8,
}

#[repr(C)]
pub struct Config {
    pub mutators: u32,
    pub workers: u32,
    pub queues: u32,
    pub cells: u32,
    pub span: u64,
    pub scaled: u32,
}

#[repr(C)]
#[derive(Default)]
pub struct Step {
    pub kind: u32,
    pub by: u32,
    pub a: u32,
    pub b: u32,
    pub c: u32,
    pub n: u32,
    pub clock: u64,
}

#[repr(C)]
#[derive(Debug, Default)]
pub struct Reply {
    pub kind: u32,
    pub fault: u32,
    pub object: u32,
    pub queue: u32,
    pub worker: u32,
    pub count: u32,
    pub number: u64,
}

extern "C" {
    fn ref_world_new(world: *mut Handle, config: *const Config) -> u32;
    fn ref_world_step(world: *mut Handle, step: *const Step, reply: *mut Reply, list: *mut u64, room: usize);
    fn ref_world_end(world: *mut Handle);
}

pub struct World(Handle);

impl World {
    /// A world, or the number of a fault.
    pub fn new(config: &Config) -> Result<World, u32> {
        let mut world = World(Handle { at: null_mut() });
        match unsafe { ref_world_new(&mut world.0, config) } {
            0 => Ok(world),
            fault => Err(fault),
        }
    }

    /// Does a step. What a batch lists goes into the list.
    pub fn step(&mut self, step: &Step, list: &mut [u64]) -> Reply {
        let mut reply = Reply::default();
        unsafe { ref_world_step(&mut self.0, step, &mut reply, list.as_mut_ptr(), list.len()) };
        reply
    }
}

impl Drop for World {
    fn drop(&mut self) {
        unsafe { ref_world_end(&mut self.0) }
    }
}

fn main() {
    let mut config = Config { mutators: 9, workers: 1, queues: 1, cells: 8, span: 10, scaled: 0 };
    assert_eq!(World::new(&config).err(), Some(1));
    config.mutators = 1;
    let mut world = World::new(&config).expect("a world");
    let of = |kind, a, b| Step { kind, a, b, ..Step::default() };
    let begin = Step { clock: 5, ..of(20, 0, 0) };
    let steps = [
        ("new", of(0, 0, 0), (64, 1)),
        ("weak", of(2, 1, 0), (64, 2)),
        ("drop", of(7, 0, 0), (66, 0)),
        ("begin", begin, (80, 0)),
        ("scan", of(21, 0, 0), (81, 2)),
        ("scan", of(21, 0, 0), (72, 0)),
        ("endmark", of(22, 0, 0), (82, 0)),
        ("clearnext", of(23, 0, 0), (83, 2)),
    ];
    for (name, step, due) in &steps {
        let reply = world.step(step, &mut []);
        println!("{name}: kind {}, object {}", reply.kind, reply.object);
        assert_eq!((reply.kind, reply.object), *due);
    }
}
