//! Stand-in for `hyper::abi::native`: document 01's prefix and rights. The other rights are named by the sources and used by no request;
//! their bits are ours.

pub mod native {
    pub const HYPER_NATIVE_HANDLE_PREFIX_MASK: u64 = 0xFF00_0000_0000_0000;
    pub const HYPER_NATIVE_HANDLE_PREFIX: u64 = 0x4800_0000_0000_0000;
    /// Rights are 64 bits, all of them known.
    pub const HYPER_NATIVE_RIGHTS_MASK: u64 = u64::MAX;
    pub const HYPER_NATIVE_RIGHT_DUPLICATE: u64 = 1;
    pub const HYPER_NATIVE_RIGHT_TRANSFER: u64 = 2;
    pub const HYPER_NATIVE_RIGHT_ACK_INTERRUPT: u64 = 1 << 2;
    pub const HYPER_NATIVE_RIGHT_ASSIGN_DEVICE: u64 = 1 << 3;
    pub const HYPER_NATIVE_RIGHT_BIND_WAIT: u64 = 1 << 4;
    pub const HYPER_NATIVE_RIGHT_CREATE_EXECUTABLE: u64 = 1 << 5;
    pub const HYPER_NATIVE_RIGHT_CREATE_OBJECT: u64 = 1 << 6;
    pub const HYPER_NATIVE_RIGHT_CREATE_PROCESS: u64 = 1 << 7;
    pub const HYPER_NATIVE_RIGHT_CREATE_RESOURCE_DOMAIN: u64 = 1 << 8;
    pub const HYPER_NATIVE_RIGHT_CREATE_TASK_GROUP: u64 = 1 << 9;
    pub const HYPER_NATIVE_RIGHT_CREATE_THREAD: u64 = 1 << 10;
    pub const HYPER_NATIVE_RIGHT_CREATE_VIRTUAL_MACHINE: u64 = 1 << 11;
    pub const HYPER_NATIVE_RIGHT_DERIVE: u64 = 1 << 12;
    pub const HYPER_NATIVE_RIGHT_EXECUTE: u64 = 1 << 13;
    pub const HYPER_NATIVE_RIGHT_INSPECT: u64 = 1 << 14;
    pub const HYPER_NATIVE_RIGHT_INSPECT_DETAILS: u64 = 1 << 15;
    pub const HYPER_NATIVE_RIGHT_LOCK_FILE: u64 = 1 << 16;
    pub const HYPER_NATIVE_RIGHT_LOCK_MEMORY: u64 = 1 << 17;
    pub const HYPER_NATIVE_RIGHT_MANAGE_NAMESPACE: u64 = 1 << 18;
    pub const HYPER_NATIVE_RIGHT_MAP: u64 = 1 << 19;
    pub const HYPER_NATIVE_RIGHT_MAP_DMA: u64 = 1 << 20;
    pub const HYPER_NATIVE_RIGHT_PROTECT: u64 = 1 << 21;
    pub const HYPER_NATIVE_RIGHT_READ: u64 = 1 << 22;
    pub const HYPER_NATIVE_RIGHT_REQUEST_STOP: u64 = 1 << 23;
    pub const HYPER_NATIVE_RIGHT_RESOURCE_DOMAIN_SPONSOR: u64 = 1 << 24;
    pub const HYPER_NATIVE_RIGHT_RETAIN_PROCESS: u64 = 1 << 25;
    pub const HYPER_NATIVE_RIGHT_RETIRE: u64 = 1 << 26;
    pub const HYPER_NATIVE_RIGHT_REVOKE: u64 = 1 << 27;
    pub const HYPER_NATIVE_RIGHT_SCHED_BUDGET: u64 = 1 << 28;
    pub const HYPER_NATIVE_RIGHT_SCHED_CLASS: u64 = 1 << 29;
    pub const HYPER_NATIVE_RIGHT_SCHED_LOWER: u64 = 1 << 30;
    pub const HYPER_NATIVE_RIGHT_SCHED_PRIORITY: u64 = 1 << 31;
    pub const HYPER_NATIVE_RIGHT_SET_ATTRIBUTES: u64 = 1 << 32;
    pub const HYPER_NATIVE_RIGHT_SET_LIMITS: u64 = 1 << 33;
    pub const HYPER_NATIVE_RIGHT_SIGNAL: u64 = 1 << 34;
    pub const HYPER_NATIVE_RIGHT_START: u64 = 1 << 35;
    pub const HYPER_NATIVE_RIGHT_TASK_GROUP_ATTACH_PROCESS: u64 = 1 << 36;
    pub const HYPER_NATIVE_RIGHT_WAIT: u64 = 1 << 37;
    pub const HYPER_NATIVE_RIGHT_WRITE: u64 = 1 << 38;
}
