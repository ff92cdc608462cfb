//! Both programs behind one type, so that a test or a measurement treats them alike.

use crate::command::Command;
use crate::floor::Tables;
use crate::write::Message;
use crate::{calls, library};

type ReadCall = unsafe extern "C" fn(*const u8, usize, *mut u8, usize) -> u32;
type StreamCall = unsafe extern "C" fn(*const u8, usize, *mut u8, usize, *mut u8, usize) -> u32;
#[rustfmt::skip]
type WriteCall = unsafe extern "C" fn(
    u8, u8, u32, u32, u32, u32,
    *const u8, usize, *const u8, usize, *const u8, usize,
    *mut u8, usize, *mut u8, usize,
) -> u32;
type TreeCall = unsafe extern "C" fn(*const u8, usize, *mut u8, usize, *mut u8, usize) -> u32;
type TableCall = unsafe extern "C" fn(*const u8, usize, *const u8, usize) -> u32;
/// A step or a walk.
#[rustfmt::skip]
type StepCall = unsafe extern "C" fn(
    *const u8, usize, *const u8, usize, *const u8, usize,
    u32,
    *mut u8, usize, *mut u8, usize,
) -> u32;

#[rustfmt::skip]
type WriteCommandCall = unsafe extern "C" fn(
    u8, u8,
    *const u8, usize, *const u8, usize, *const u8, usize,
    *mut u8, usize, *mut u8, usize,
) -> u32;

/// One of the two programs.
#[derive(Clone, Copy)]
pub struct Side {
    pub name: &'static str,
    read: ReadCall,
    read_fault: ReadCall,
    read_stream: StreamCall,
    write: WriteCall,
    check_tree: TreeCall,
    check_services: TableCall,
    check_identities: TableCall,
    step: StepCall,
    walk: StepCall,
    check_json: ReadCall,
    read_command: ReadCall,
    write_command: WriteCommandCall,
}

pub const LIBRARY: Side = Side {
    name: "library",
    read: library::lampreycoil_read,
    read_fault: library::lampreycoil_read_fault,
    read_stream: library::lampreycoil_read_stream,
    write: library::lampreycoil_write,
    check_tree: library::lampreycoil_check_tree,
    check_services: library::lampreycoil_check_services,
    check_identities: library::lampreycoil_check_identities,
    step: library::lampreycoil_step,
    walk: library::lampreycoil_walk,
    check_json: library::lampreycoil_check_json,
    read_command: library::lampreycoil_read_command,
    write_command: library::lampreycoil_write_command,
};

pub const SECOND: Side = Side {
    name: "second",
    read: calls::second_read,
    read_fault: calls::second_read_fault,
    read_stream: calls::second_read_stream,
    write: calls::second_write,
    check_tree: calls::second_check_tree,
    check_services: calls::second_check_services,
    check_identities: calls::second_check_identities,
    step: calls::second_step,
    walk: calls::second_walk,
    check_json: calls::second_check_json,
    read_command: calls::second_read_command,
    write_command: calls::second_write_command,
};

impl Side {
    pub fn read(&self, bytes: &[u8], record: &mut [u8]) -> u32 {
        bytes_and_record(self.read, bytes, record)
    }

    pub fn read_fault(&self, bytes: &[u8], record: &mut [u8]) -> u32 {
        bytes_and_record(self.read_fault, bytes, record)
    }

    pub fn read_stream(&self, bytes: &[u8], list: &mut [u8], record: &mut [u8]) -> u32 {
        // Safe: all slices live through the call; list and record are lent to it alone.
        unsafe {
            (self.read_stream)(
                bytes.as_ptr(),
                bytes.len(),
                list.as_mut_ptr(),
                list.len(),
                record.as_mut_ptr(),
                record.len(),
            )
        }
    }

    pub fn write(&self, message: &Message, out: &mut [u8], record: &mut [u8]) -> u32 {
        let header = &message.header;
        // Safe: all slices live through the call; out and record are lent to it alone.
        unsafe {
            (self.write)(
                header.kind,
                header.flags,
                header.userid,
                header.rolemask,
                header.first,
                header.second,
                message.routes.as_ptr(),
                message.routes.len(),
                message.topic.as_ptr(),
                message.topic.len(),
                message.payload.as_ptr(),
                message.payload.len(),
                out.as_mut_ptr(),
                out.len(),
                record.as_mut_ptr(),
                record.len(),
            )
        }
    }

    pub fn check_tree(&self, tree: &[u8], depths: &mut [u8], record: &mut [u8]) -> u32 {
        // Safe: all slices live through the call; depths and record are lent to it alone.
        unsafe {
            (self.check_tree)(
                tree.as_ptr(),
                tree.len(),
                depths.as_mut_ptr(),
                depths.len(),
                record.as_mut_ptr(),
                record.len(),
            )
        }
    }

    pub fn check_services(&self, tree: &[u8], services: &[u8]) -> u32 {
        // Safe: both slices live through the call.
        unsafe {
            (self.check_services)(tree.as_ptr(), tree.len(), services.as_ptr(), services.len())
        }
    }

    pub fn check_identities(&self, tree: &[u8], identities: &[u8]) -> u32 {
        // Safe: both slices live through the call.
        unsafe {
            (self.check_identities)(
                tree.as_ptr(),
                tree.len(),
                identities.as_ptr(),
                identities.len(),
            )
        }
    }

    pub fn step(&self, tables: Tables, rank: u32, buffer: &mut [u8], record: &mut [u8]) -> u32 {
        // Safe: all slices live through the call; buffer and record are lent to it alone.
        unsafe {
            (self.step)(
                tables.tree.as_ptr(),
                tables.tree.len(),
                tables.services.as_ptr(),
                tables.services.len(),
                tables.identities.as_ptr(),
                tables.identities.len(),
                rank,
                buffer.as_mut_ptr(),
                buffer.len(),
                record.as_mut_ptr(),
                record.len(),
            )
        }
    }

    pub fn walk(&self, tables: Tables, rank: u32, buffer: &mut [u8], record: &mut [u8]) -> u32 {
        // Safe: all slices live through the call; buffer and record are lent to it alone.
        unsafe {
            (self.walk)(
                tables.tree.as_ptr(),
                tables.tree.len(),
                tables.services.as_ptr(),
                tables.services.len(),
                tables.identities.as_ptr(),
                tables.identities.len(),
                rank,
                buffer.as_mut_ptr(),
                buffer.len(),
                record.as_mut_ptr(),
                record.len(),
            )
        }
    }

    pub fn check_json(&self, payload: &[u8], record: &mut [u8]) -> u32 {
        bytes_and_record(self.check_json, payload, record)
    }

    pub fn read_command(&self, bytes: &[u8], record: &mut [u8]) -> u32 {
        bytes_and_record(self.read_command, bytes, record)
    }

    pub fn write_command(&self, command: &Command, out: &mut [u8], record: &mut [u8]) -> u32 {
        // Safe: all slices live through the call; out and record are lent to it alone.
        unsafe {
            (self.write_command)(
                command.sender,
                command.command,
                command.name.as_ptr(),
                command.name.len(),
                command.address.as_ptr(),
                command.address.len(),
                command.body.as_ptr(),
                command.body.len(),
                out.as_mut_ptr(),
                out.len(),
                record.as_mut_ptr(),
                record.len(),
            )
        }
    }
}

/// A call that is lent bytes to read and a record to write.
fn bytes_and_record(call: ReadCall, bytes: &[u8], record: &mut [u8]) -> u32 {
    // Safe: both slices live through the call, and record is lent to it alone.
    unsafe {
        call(
            bytes.as_ptr(),
            bytes.len(),
            record.as_mut_ptr(),
            record.len(),
        )
    }
}
