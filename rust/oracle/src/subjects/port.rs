//! The port: the C entry points, one method each. A wrong port is one that alters some of them.
#![allow(clippy::too_many_arguments)]

use ihex_sys::{Lies, Standing};

use crate::subjects::told::{Entry, Light, Listening, Place, SEntry};

pub trait Port: Sync {
    fn checksum(&self, bytes: &[u8]) -> u8 {
        ihex_sys::checksum(bytes)
    }

    fn read_record(
        &self,
        line: &[u8],
        pool: &mut [u8],
        at: usize,
        (a, b, c): (&mut u64, &mut u64, &mut u64),
    ) -> u32 {
        ihex_sys::read_record(line, pool, at, a, b, c)
    }

    fn next(
        &self,
        text: &[u8],
        pool: &mut [u8],
        at: usize,
        (position, line, flags): (&mut usize, &mut usize, &mut u8),
        (a, b, c): (&mut u64, &mut u64, &mut u64),
    ) -> u32 {
        ihex_sys::next(text, pool, at, position, line, flags, a, b, c)
    }

    fn next_chunk(
        &self,
        chunk: &[u8],
        carry: &mut [u8],
        pool: &mut [u8],
        at: usize,
        standing: Standing,
        lies: Lies,
        (a, b, c): (&mut u64, &mut u64, &mut u64),
    ) -> u32 {
        ihex_sys::next_chunk(chunk, carry, pool, at, standing, lies, a, b, c)
    }

    fn finish(
        &self,
        carry: &mut [u8],
        pool: &mut [u8],
        at: usize,
        standing: Standing,
        lies: Lies,
        (a, b, c): (&mut u64, &mut u64, &mut u64),
    ) -> u32 {
        ihex_sys::finish(carry, pool, at, standing, lies, a, b, c)
    }

    fn shown(
        &self,
        (lies, from, len): Place,
        chunk: &[u8],
        carry: &[u8],
        start: &mut usize,
    ) -> usize {
        ihex_sys::shown(lies, from, len, chunk, carry, start)
    }

    fn to_record_string(&self, entry: &Entry, pool: &[u8], out: &mut [u8], value: &mut u64) -> u32 {
        let Entry {
            kind,
            number,
            second,
            at,
            len,
        } = *entry;
        ihex_sys::to_record_string(kind, number, second, at, len, pool, out, value)
    }

    fn create_object_file_representation(
        &self,
        list: &[u8],
        pool: &[u8],
        out: &mut [u8],
        value: &mut u64,
    ) -> u32 {
        ihex_sys::create_object_file_representation(list, pool, out, value)
    }

    fn load(
        &self,
        text: &[u8],
        first: u32,
        page: &mut [u8],
        marks: &mut [u8],
        (line, start): (&mut usize, &mut u8),
        (a, b, c): (&mut u64, &mut u64, &mut u64),
    ) -> u32 {
        ihex_sys::load(text, first, page, marks, line, start, a, b, c)
    }

    fn check_table(&self, table: &[u8], pool_len: usize, marks_len: usize) -> u32 {
        ihex_sys::check_table(table, pool_len, marks_len)
    }

    fn load_table(
        &self,
        text: &[u8],
        owner: u32,
        table: &[u8],
        pool: &mut [u8],
        marks: &mut [u8],
        (line, start): (&mut usize, &mut u8),
        (a, b, c): (&mut u64, &mut u64, &mut u64),
    ) -> u32 {
        ihex_sys::load_table(text, owner, table, pool, marks, line, start, a, b, c)
    }

    fn ask(
        &self,
        text: &[u8],
        address: u32,
        line: &mut usize,
        (a, b): (&mut u64, &mut u64),
    ) -> u32 {
        ihex_sys::ask(text, address, line, a, b)
    }

    fn set_up_light(&self, light: Light, known: &mut u32) -> u32 {
        let Light {
            first,
            length,
            high,
            low,
        } = light;
        ihex_sys::set_up_light(first, length, high, low, known)
    }

    fn light(
        &self,
        text: &[u8],
        light: Light,
        page: &mut [u8],
        marks: &mut [u8],
        (known, color): (&mut u32, &mut u8),
        (line, start): (&mut usize, &mut u8),
        (a, b, c): (&mut u64, &mut u64, &mut u64),
    ) -> u32 {
        let Light {
            first,
            length,
            high,
            low,
        } = light;
        ihex_sys::light(
            text, first, length, high, low, page, marks, known, color, line, start, a, b, c,
        )
    }

    fn feed(
        &self,
        chunk: &[u8],
        carry: &mut [u8],
        first: u32,
        (stage, stated): (&mut [u8], &mut [u8]),
        listening: &mut Listening,
        taken: &mut usize,
        (line, start): (&mut usize, &mut u8),
        (a, b, c): (&mut u64, &mut u64, &mut u64),
    ) -> u32 {
        let numbers = listening.lend();
        ihex_sys::feed(
            chunk, carry, first, stage, stated, numbers, taken, line, start, a, b, c,
        )
    }

    fn pause(
        &self,
        carry: &mut [u8],
        first: u32,
        (stage, stated): (&mut [u8], &mut [u8]),
        listening: &mut Listening,
        (line, start): (&mut usize, &mut u8),
        (a, b, c): (&mut u64, &mut u64, &mut u64),
    ) -> u32 {
        let numbers = listening.lend();
        ihex_sys::pause(carry, first, stage, stated, numbers, line, start, a, b, c)
    }

    fn commit(
        &self,
        (stage, stated): (&[u8], &[u8]),
        page: &mut [u8],
        marks: &mut [u8],
        flags: &mut u8,
    ) -> u32 {
        ihex_sys::commit(stage, stated, page, marks, flags)
    }

    fn light_after(
        &self,
        code: u32,
        light: Light,
        page: &[u8],
        marks: &[u8],
        known: &mut u32,
    ) -> u8 {
        let Light {
            first,
            length,
            high,
            low,
        } = light;
        ihex_sys::light_after(code, first, length, high, low, page, marks, known)
    }

    fn page_file_length(&self, first: u32, page: &[u8], marks: &[u8], value: &mut u64) -> u32 {
        ihex_sys::page_file_length(first, page, marks, value)
    }

    fn write_page(
        &self,
        first: u32,
        page: &[u8],
        marks: &[u8],
        out: &mut [u8],
        value: &mut u64,
    ) -> u32 {
        ihex_sys::write_page(first, page, marks, out, value)
    }

    fn salvage(
        &self,
        text: &[u8],
        out: &mut [u8],
        list: &mut [u8],
        (a, b): (&mut u64, &mut u64),
    ) -> u32 {
        ihex_sys::salvage(text, out, list, a, b)
    }

    fn read_srecord(
        &self,
        line: &[u8],
        pool: &mut [u8],
        at: usize,
        (a, b, c): (&mut u64, &mut u64, &mut u64),
    ) -> u32 {
        ihex_sys::read_srecord(line, pool, at, a, b, c)
    }

    fn to_srecord_string(
        &self,
        entry: &SEntry,
        pool: &[u8],
        out: &mut [u8],
        value: &mut u64,
    ) -> u32 {
        let SEntry {
            kind,
            address,
            at,
            len,
        } = *entry;
        ihex_sys::to_srecord_string(kind, address, at, len, pool, out, value)
    }

    fn load_srecords(
        &self,
        text: &[u8],
        first: u32,
        page: &mut [u8],
        marks: &mut [u8],
        (line, start): (&mut usize, &mut u8),
        (a, b, c): (&mut u64, &mut u64, &mut u64),
    ) -> u32 {
        ihex_sys::load_srecords(text, first, page, marks, line, start, a, b, c)
    }

    fn load_srecords_table(
        &self,
        text: &[u8],
        owner: u32,
        table: &[u8],
        pool: &mut [u8],
        marks: &mut [u8],
        (line, start): (&mut usize, &mut u8),
        (a, b, c): (&mut u64, &mut u64, &mut u64),
    ) -> u32 {
        ihex_sys::load_srecords_table(text, owner, table, pool, marks, line, start, a, b, c)
    }

    fn light_srecords(
        &self,
        text: &[u8],
        light: Light,
        page: &mut [u8],
        marks: &mut [u8],
        (known, color): (&mut u32, &mut u8),
        (line, start): (&mut usize, &mut u8),
        (a, b, c): (&mut u64, &mut u64, &mut u64),
    ) -> u32 {
        let Light {
            first,
            length,
            high,
            low,
        } = light;
        ihex_sys::light_srecords(
            text, first, length, high, low, page, marks, known, color, line, start, a, b, c,
        )
    }
}

/// The port itself.
pub struct Real;

impl Port for Real {}
