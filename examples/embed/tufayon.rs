// `include/tufayon.h` for Rust.
use std::ffi::c_void;

pub const REPLY_ROOM: usize = 544;
pub const FRAME_ROOM: usize = 1284;
pub const NAME_ROOM: usize = 128;
pub const GOAL_ROOM: usize = 645;

pub const DONE: u32 = 0;
pub const NO_MEMORY: u32 = 1;
pub const EMPTY: u32 = 2;
pub const FULL: u32 = 3;
pub const BAD_NAME: u32 = 4;
pub const BAD_RECORD: u32 = 5;
pub const SHORT: u32 = 6;
pub const BAD_FRAME: u32 = 7;
pub const NO_ROOM: u32 = 8;
pub const RENEWED: u32 = 9;
pub const TAKE_OUT: u32 = 10;
pub const NO_MORE: u32 = 11;
pub const REFUSED: u32 = 12;
pub const OTHER_KIND: u32 = 13;
pub const MET: u32 = 14;
pub const IGNORED: u32 = 15;
pub const EARLIER_SESSION: u32 = 16;
pub const NODE_IN_USE: u32 = 17;
pub const OLDER_STORE: u32 = 18;
pub const SAME_NODE: u32 = 19;
pub const NOT_LATER: u32 = 20;
pub const DISAGREES: u32 = 21;
pub const BAD_ROW: u32 = 22;

// A plugin, an orchestrator, or nothing.
#[repr(C)]
pub struct Plugin {
    at: *mut c_void,
    full: bool,
}

impl Plugin {
    pub const EMPTY: Plugin = Plugin { at: std::ptr::null_mut(), full: false };
}

unsafe extern "C" {
    pub fn tufayon_controller_new(config: *const u8, config_size: usize, plugin: *mut Plugin) -> u32;
    pub fn tufayon_node_new(id: *const u8, id_size: usize, plugin: *mut Plugin) -> u32;
    pub fn tufayon_controller_from_record(config: *const u8, config_size: usize, record: *const u8, record_size: usize, plugin: *mut Plugin) -> u32;
    pub fn tufayon_node_from_record(id: *const u8, id_size: usize, record: *const u8, record_size: usize, plugin: *mut Plugin) -> u32;
    pub fn tufayon_node_joined(id: *const u8, id_size: usize, session: u64, plugin: *mut Plugin) -> u32;
    pub fn tufayon_node_joined_from_record(id: *const u8, id_size: usize, session: u64, record: *const u8, record_size: usize, plugin: *mut Plugin) -> u32;
    pub fn tufayon_answer(plugin: *mut Plugin, frame: *const u8, frame_size: usize, used: *mut usize, reply: *mut u8, reply_room: usize, written: *mut usize) -> u32;
    pub fn tufayon_orchestrator_new(config: *const u8, config_size: usize, orchestrator: *mut Plugin) -> u32;
    pub fn tufayon_orchestrator_from_record(config: *const u8, config_size: usize, record: *const u8, record_size: usize, orchestrator: *mut Plugin) -> u32;
    pub fn tufayon_orchestrator_open(config: *const u8, config_size: usize, record: *const u8, record_size: usize, session: u64, orchestrator: *mut Plugin) -> u32;
    pub fn tufayon_raise(plugin: *mut Plugin, session: u64) -> u32;
    pub fn tufayon_recovery_session(known: u64, controller: *mut Plugin, nodes: *mut Plugin, nodes_count: usize, session: *mut u64) -> u32;
    pub fn tufayon_orchestrator_recovered(config: *const u8, config_size: usize, session: u64, controller: *mut Plugin, nodes: *mut Plugin,
        nodes_count: usize, orchestrator: *mut Plugin, place: *mut u64) -> u32;
    pub fn tufayon_create(orchestrator: *mut Plugin, name: *const u8, name_size: usize, required: u64, limit: u64, capabilities: *const u8,
        capabilities_size: usize, frame: *mut u8, frame_room: usize, written: *mut usize, fault: *mut u32) -> u32;
    pub fn tufayon_use(orchestrator: *mut Plugin, name: *const u8, name_size: usize, node: *const u8, node_size: usize, target: *const u8,
        target_size: usize, capability: *const u8, capability_size: usize, readonly: bool, frame: *mut u8, frame_room: usize, written: *mut usize,
        fault: *mut u32) -> u32;
    pub fn tufayon_stop(orchestrator: *mut Plugin, name: *const u8, name_size: usize, node: *const u8, node_size: usize, target: *const u8,
        target_size: usize, frame: *mut u8, frame_room: usize, written: *mut usize, fault: *mut u32) -> u32;
    pub fn tufayon_delete(orchestrator: *mut Plugin, name: *const u8, name_size: usize, frame: *mut u8, frame_room: usize, written: *mut usize,
        fault: *mut u32) -> u32;
    pub fn tufayon_timeout(orchestrator: *mut Plugin, name: *const u8, name_size: usize, frame: *mut u8, frame_room: usize, written: *mut usize,
        fault: *mut u32) -> u32;
    pub fn tufayon_deliver(orchestrator: *mut Plugin, came: *const u8, came_size: usize, used: *mut usize, frame: *mut u8, frame_room: usize,
        written: *mut usize, fault: *mut u32) -> u32;
    pub fn tufayon_orchestrator_lose(orchestrator: *mut Plugin, node: *const u8, node_size: usize, fault: *mut u32) -> u32;
    pub fn tufayon_exists(orchestrator: *mut Plugin, name: *const u8, name_size: usize, known: *mut u32) -> u32;
    pub fn tufayon_attached(orchestrator: *mut Plugin, name: *const u8, name_size: usize, node: *const u8, node_size: usize, known: *mut u32) -> u32;
    pub fn tufayon_staged(orchestrator: *mut Plugin, name: *const u8, name_size: usize, node: *const u8, node_size: usize, known: *mut u32) -> u32;
    pub fn tufayon_published(orchestrator: *mut Plugin, name: *const u8, name_size: usize, node: *const u8, node_size: usize, target: *const u8,
        target_size: usize, known: *mut u32) -> u32;
    pub fn tufayon_goal(orchestrator: *mut Plugin, name: *const u8, name_size: usize, goal: *mut u8, goal_room: usize, written: *mut usize) -> u32;
    pub fn tufayon_volume(orchestrator: *mut Plugin, place: usize, name: *mut u8, name_room: usize, written: *mut usize) -> u32;
    pub fn tufayon_changed(plugin: *mut Plugin, place: usize, key: *mut u64, value: *mut u8, value_room: usize, written: *mut usize) -> u32;
    pub fn tufayon_record(plugin: *mut Plugin, record: *mut u8, record_room: usize, written: *mut usize) -> u32;
    pub fn tufayon_free(plugin: *mut Plugin);
    pub fn tufayon_version(text: *mut u8, text_room: usize, written: *mut usize) -> u32;
}
