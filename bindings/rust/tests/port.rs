use sezhimow::{
    audit, check_class, decode_map, open_report, seal_report, Class, ClassCertificate, Descriptor,
    Header, Item, Level, MapHead, Port, Told, Verdict,
};

fn best_effort(max: u64) -> Descriptor {
    Descriptor {
        fixed: 0,
        assured: 0,
        max,
        class: Class::BestEffort,
    }
}

#[test]
fn versions() {
    let (major, minor, patch) = sezhimow::version();
    assert_eq!(format!("{major}.{minor}.{patch}"), env!("CARGO_PKG_VERSION"));
    assert_eq!(sezhimow::abi(), 0);
}

#[test]
fn the_map_of_the_readme() {
    let mut port = Port::open(16, 0, 0).unwrap();
    let fixed = Descriptor {
        fixed: 2560,
        assured: 0,
        max: 2560,
        class: Class::None,
    };
    port.admit(5, 1024, fixed).unwrap();
    let map = port.map().unwrap();
    let text: String = map.bytes.iter().map(|byte| format!("{byte:02x}")).collect();
    assert_eq!((map.frame, text.as_str()), (0, "002013ac10020010000b13cb"));
}

#[test]
fn a_call_that_is_not_taken_says_why() {
    assert!(matches!(Port::open(0, 0, 0), Err(Told::BadGap)));
    assert!(matches!(Port::open(1, 4, 0), Err(Told::BadProfile)));
    let mut port = Port::open(16, 0, 0).unwrap();
    assert_eq!(port.remove(1024), Err(Told::NoSuchAlloc));
    assert_eq!(port.remove(1), Err(Told::AllocRange));
    assert_eq!(port.admit(1023, 1024, best_effort(9)), Err(Told::OnuRange));
    assert_eq!(port.certificate(), Err(Told::NoMap));
    assert_eq!(port.row(0), Err(Told::NoRow));
    assert_eq!(
        port.report(0, 1, &[Some(u32::MAX)]),
        Err(Told::BadOccupancy)
    );
    assert_eq!(port.report(0, 1, &[None; 17]), Err(Told::BadCount));
    assert_eq!(port.map_into(&mut [0; 4099]), Err(Told::NoRoom));
    assert_eq!(port.restore(), Err(Told::PortUp));
}

#[test]
fn a_report_is_a_load_until_it_is_granted() {
    let mut port = Port::open(16, 0, 0).unwrap();
    port.admit(7, 2000, best_effort(256_000)).unwrap();
    let frame = port.map().unwrap().frame;
    port.report(frame, 7, &[Some(100)]).unwrap();
    let row = port.find(2000).unwrap();
    assert_eq!((row.load, row.report.unwrap().words), (25_600, 100));
    port.map().unwrap();
    assert_eq!(port.row(0).unwrap().report.unwrap().words, 0);
    let state = port.state().unwrap();
    assert_eq!(
        (
            state.next_frame,
            state.alloc_ids,
            state.onus,
            state.taken,
            state.cause
        ),
        (2, 1, 1, 4, None)
    );
}

#[test]
fn a_chapter_goes_to_another_thread() {
    let mut port = Port::open(16, 0, 0).unwrap();
    port.admit(7, 2000, best_effort(256_000)).unwrap();
    let mut chapter = port.turn().unwrap();
    let writer = std::thread::spawn(move || chapter.recording(5).unwrap());
    port.map().unwrap();
    assert_eq!(&writer.join().unwrap()[..8], b"PONREC02");
    assert_eq!(port.state().unwrap().chapter, 1);
}

#[test]
fn ports_are_free_of_each_other() {
    let threads: Vec<_> = (0..64)
        .map(|onu| {
            std::thread::spawn(move || {
                let mut port = Port::open(16, 0, 0).unwrap();
                port.admit(onu, 2000, best_effort(256_000)).unwrap();
                (0..1000)
                    .map(|_| port.map().unwrap().bytes)
                    .collect::<Vec<_>>()
            })
        })
        .collect();
    let maps: Vec<_> = threads
        .into_iter()
        .map(|thread| thread.join().unwrap())
        .collect();
    assert!(maps.windows(2).all(|pair| pair[0] == pair[1]));
}

#[test]
fn a_map_is_explained_and_checked() {
    let mut port = Port::open(16, 0, 0).unwrap();
    port.admit(7, 2000, best_effort(256_000)).unwrap();
    assert_eq!(port.why(2000), Err(Told::NoMap));
    let frame = port.map().unwrap().frame;
    port.report(frame, 7, &[Some(100_000)]).unwrap();
    let map = port.map().unwrap();
    let why = port.why(2000).unwrap();
    assert_eq!(
        (why.frame, why.guaranteed, why.item.cap, why.surplus),
        (1, 0, 256_000, (256_000, 1))
    );
    let certificate = port.certificate_parts().unwrap().best_effort;
    assert_eq!(
        certificate,
        ClassCertificate {
            level: Level::All,
            saturated: vec![true]
        }
    );
    assert_eq!(
        check_class(&[why.item], port.state().unwrap().capacity, &certificate),
        Ok(())
    );
    let less = ClassCertificate {
        level: Level::All,
        saturated: vec![false],
    };
    assert_eq!(
        check_class(&[why.item], 256_000, &less),
        Err((Told::CertUnsaturated, 0))
    );
    assert_eq!(
        check_class(&[Item { weight: 0, cap: 0 }], 1, &less),
        Err((Told::BadProblem, 0))
    );
    let decoded = decode_map(&map.bytes).unwrap();
    assert_eq!(
        (
            decoded.size,
            decoded.structures.len(),
            decoded.structures[0].grant
        ),
        (12, 1, why.grant)
    );
    assert_eq!(decode_map(&map.bytes[..11]), Err((Told::Short, 0)));
}

#[test]
fn a_recording_is_audited() {
    let mut port = Port::open(16, 0, 0).unwrap();
    port.admit(7, 2000, best_effort(256_000)).unwrap();
    for _ in 0..100 {
        port.map().unwrap();
    }
    let bytes = port.turn().unwrap().recording(5).unwrap();
    assert_eq!(audit(&bytes), Ok(Verdict::Good { maps: 100 }));
    assert_eq!(audit(&bytes[..9]), Ok(Verdict::Truncated { at: 8 }));
    assert_eq!(audit(b"no recording"), Ok(Verdict::Malformed { at: 0 }));
}

#[test]
fn a_port_goes_on_where_a_recording_ends() {
    let mut port = Port::open(16, 0, 0).unwrap();
    port.admit(7, 2000, best_effort(256_000)).unwrap();
    let frame = port.map().unwrap().frame;
    port.report(frame, 7, &[Some(100_000)]).unwrap();
    let mut bytes = port.turn().unwrap().recording(5).unwrap();
    let mut resumed = Port::resume(&bytes, 5).unwrap();
    assert_eq!(resumed.state(), port.state());
    assert_eq!(resumed.row(0), port.row(0));
    assert_eq!(resumed.map(), port.map());
    let later = resumed.turn().unwrap().recording(5).unwrap();
    let first = bytes.len();
    bytes.extend_from_slice(&later[8..]);
    assert_eq!(audit(&bytes), Ok(Verdict::Good { maps: 2 }));
    assert!(matches!(Port::resume(&bytes, 6), Err((Told::NoChapter, None))));
    assert!(matches!(Port::resume(&bytes, 64), Err((Told::BadPort, None))));
    assert!(matches!(
        Port::resume(&bytes[..bytes.len() - 1], 5),
        Err((Told::NotGood, Some(Verdict::Truncated { at }))) if at == first
    ));
}

#[test]
fn a_map_as_grants() {
    let mut ports = [Port::open(16, 0, 0).unwrap(), Port::open(16, 0, 0).unwrap()];
    for port in &mut ports {
        port.admit(7, 2000, best_effort(256_000)).unwrap();
        port.admit(7, 2001, best_effort(256_000)).unwrap();
    }
    let decoded = decode_map(&ports[0].map().unwrap().bytes).unwrap();
    let (frame, grants) = ports[1].map_grants().unwrap();
    assert_eq!((frame, grants.len(), grants[1].start), (0, 2, None));
    for (grant, structure) in grants.iter().zip(&decoded.structures) {
        assert_eq!(
            (grant.alloc_id, grant.start, grant.words),
            (structure.alloc_id, structure.start, structure.grant)
        );
    }
}

#[test]
fn heads_of_maps() {
    let mut port = Port::open(16, 0, 0).unwrap();
    port.admit(7, 2000, best_effort(256_000)).unwrap();
    let head = MapHead {
        structures: 1,
        messages: 0,
    };
    let mut bytes = head.seal().unwrap();
    assert_eq!(bytes, port.map().unwrap().bytes[..4]);
    bytes[3] ^= 0x81;
    assert_eq!(MapHead::open(&bytes), Ok((head, 2)));
    assert_eq!(MapHead::open(&bytes[..3]), Err(Told::Short));
    let most = MapHead {
        structures: 2048,
        messages: 255,
    };
    assert_eq!(most.seal(), Err(Told::BadHeader));
}

#[test]
fn headers_and_reports() {
    let header = Header {
        onu: 1022,
        indications: 257,
    };
    let mut bytes = header.seal().unwrap();
    bytes[0] ^= 0x42;
    assert_eq!(Header::open(&bytes), Ok((header, 2)));
    assert_eq!(
        Header {
            onu: 1024,
            indications: 0
        }
        .seal(),
        Err(Told::BadHeader)
    );
    let report = seal_report(16_777_215).unwrap();
    assert_eq!(open_report(&report), Ok(16_777_215));
    assert_eq!(open_report(&report[..3]), Err(Told::Short));
    assert_eq!(seal_report(16_777_216), Err(Told::BadOccupancy));
}
