// SPDX-License-Identifier: Apache-2.0
//! Addresses that are not the frontend's own: the guest's, and those of an IOMMU, which the backend has to ask for.
use std::os::unix::net::UnixStream;

use super::channel::{acknowledge, give_channel, next_asked, Asked, IOTLB_MSG};
use super::*;
use crate::connection::{Memory, Terms};
use crate::patience::Patience;
use crate::ring::Buffer;
use crate::target::{Rings, Setup};

pub(super) const CASES: &[Case] = &[
    ("IOM-01", translation_is_replied_to),
    ("IOM-02", missing_translations_are_asked_for),
    ("IOM-03", invalid_translations_are_asked_for_again),
    ("GPA-01", rings_at_addresses_of_the_guest),
];

/// Where the device sees the guest's memory through the IOMMU.
const FROM: u64 = 0x4000_0000;
const PAGE: u64 = 4096;
/// Types of an IOTLB message, and where it has its type.
const MISS: u8 = 1;
const UPDATE: u8 = 2;
const INVALIDATE: u8 = 3;
const TYPE: usize = 25;
const READ_AND_WRITE: u8 = 3;

fn translation(at: u64, size: u64, user: u64, kind: u8) -> Vec<u8> {
    joined(&[&u64s(&[at, size, user]), &[READ_AND_WRITE, kind, 0, 0, 0, 0, 0, 0]])
}

/// Accepts IOMMU_PLATFORM as well.
fn with_iommu(c: &mut Connection) -> Result<(), Stop> {
    if c.offered & IOMMU == 0 {
        return Err(Stop::Skip("IOMMU_PLATFORM is not offered".to_string()));
    }
    c.accepted |= IOMMU;
    c.send(Request::SET_FEATURES, &u64s(&[c.accepted]), &[])
}

fn translation_is_replied_to(t: &mut Target) -> Outcome {
    let mut c = t.negotiate()?;
    with_iommu(&mut c)?;
    c.give_memory()?;
    let replies = c.need(Request::IOTLB_MSG, &translation(0, PAGE, USER, UPDATE), &[])?;
    seen(matches!(&replies[..], [one] if one.body.len() == 8), listed(&replies))
}

/// A device whose rings and buffers lie behind an IOMMU, which knows no translation yet.
struct Translated {
    c: Connection,
    channel: UnixStream,
    rings: Rings,
}

impl Translated {
    fn begin(t: &mut Target) -> Result<Self, Stop> {
        let mut c = t.negotiate_with(Feature::BACKEND_REQ | Feature::REPLY_ACK)?;
        with_iommu(&mut c)?;
        let channel = give_channel(&mut c)?;
        c.rings_from = FROM;
        let rings = t.rings(&mut c, Setup::WHOLE)?;
        Ok(Translated { c, channel, rings })
    }

    /// Tells the translation of a page that is missed: its address.
    fn tell(&mut self, asked: &Asked) -> Result<Option<u64>, Stop> {
        let at = u64_at(&asked.body, 0);
        let is_miss = asked.code == IOTLB_MSG && asked.body.get(TYPE) == Some(&MISS);
        if is_miss && (FROM..FROM + SIZE).contains(&at) {
            let page = at - at % PAGE;
            self.c.need(Request::IOTLB_MSG, &translation(page, PAGE, USER + (page - FROM), UPDATE), &[])?;
        }
        acknowledge(&self.channel, asked)?;
        Ok(is_miss.then_some(at))
    }

    /// Makes a request, and tells what the backend misses until so many are used: what it missed, and whether they were.
    fn play(&mut self, t: &Target, used: u16) -> Result<(Vec<u64>, bool), Stop> {
        let ring = self.rings.driven();
        let request = t.kind()?.request(&ring.memory);
        let behind: Vec<_> = request.iter().map(|it| Buffer { address: FROM + it.address, ..*it }).collect();
        ring.describe_chain(0, &behind);
        ring.push(0);
        let (mut missed, mut patience) = (Vec::new(), Patience::new(self.c.process, self.c.limit));
        loop {
            let came =
                patience.wait_until(|| crate::system::is_readable(&self.channel, 0) || self.rings.driven().used_index() == used);
            match next_asked(&self.channel, &self.c)? {
                Some(asked) => missed.extend(self.tell(&asked)?),
                None => return Ok((missed, came)),
            }
        }
    }
}

/// The addresses as a reader sees them.
fn pages(missed: &[u64]) -> String {
    let mut found: Vec<u64> = missed.iter().map(|it| it / PAGE).collect();
    found.sort_unstable();
    found.dedup();
    format!("{} misses, of the pages {found:x?}", missed.len())
}

fn missing_translations_are_asked_for(t: &mut Target) -> Outcome {
    let mut device = Translated::begin(t)?;
    let (missed, done) = device.play(t, 1)?;
    let are_there = missed.iter().all(|it| (FROM..FROM + SIZE).contains(it));
    seen(done && !missed.is_empty() && are_there, format!("{}; used {done}", pages(&missed)))
}

fn invalid_translations_are_asked_for_again(t: &mut Target) -> Outcome {
    let mut device = Translated::begin(t)?;
    let (_, first) = device.play(t, 1)?;
    let replies = device.c.need(Request::IOTLB_MSG, &translation(FROM, SIZE, 0, INVALIDATE), &[])?;
    let (missed, second) = device.play(t, 2)?;
    let text = format!("used {first}; {}; then {}; used {second}", listed(&replies), pages(&missed));
    seen(first && second && !missed.is_empty(), text)
}

fn rings_at_addresses_of_the_guest(t: &mut Target) -> Outcome {
    t.kind()?;
    let mut c = t.negotiate_by(Terms { with: Feature::GPA_ADDRESSES, ..Terms::default() })?;
    c.want(Feature::GPA_ADDRESSES)?;
    let memory = Memory::new()?;
    c.send(Request::SET_MEM_TABLE, &table(&[Region { user: 0, ..Region::ALL }]), &[memory.file.as_raw_fd()])?;
    (c.memory, c.rings_from) = (Some(memory), 0);
    let mut rings = t.rings(&mut c, Setup::WHOLE)?;
    let done = works(t, &c, rings.driven(), 1)?;
    seen(done, format!("used {}", rings.driven().used_index()))
}
