//! The records at the edges of the rules: the library and the judge both give each what was written down for it.

use compare::calls;
use compare::edges;
use compare::tally::Tally;
use judge::make::Rng;

#[test]
fn each_edge_is_on_its_side() {
    let edges = edges::all();
    println!("{} edges", edges.len());
    for edge in edges {
        let (name, record) = (edge.name, edge.record);
        let judged = judge::open(&record).err().unwrap_or(0);
        assert_eq!(judged, edge.opened, "{name}, opened by the judge");
        let opened = scp::open(&record).map_or_else(scp::Refusal::number, |_| 0);
        assert_eq!(opened, edge.opened, "{name}, opened by the library");
        if let Some(expected) = edge.read {
            let room = scp::SAMPLES_MAX;
            let judged = judge::read_lead(&record, 1, room, room);
            let by_judge = judged.as_ref().map(|lead| lead.compared).ok();
            let judged = judged.map_or_else(|refused| refused.number, |_| 0);
            assert_eq!(judged, expected, "{name}, read by the judge");
            let read = scp::samples(&record, 1);
            let by_library = read.as_ref().map(|(lead, _)| lead.compared).ok();
            let read = read.map_or_else(scp::Refusal::number, |_| 0);
            assert_eq!(read, expected, "{name}, read by the library");
            if edge.compared.is_some() {
                assert_eq!(by_judge, edge.compared, "{name}, by the judge");
                assert_eq!(by_library, edge.compared, "{name}, by the library");
            }
        }
    }
}

#[test]
fn all_calls_agree_at_the_edges() {
    let mut rng = Rng::new(3);
    for edge in edges::all() {
        let answer = calls::compare(&edge.record, &mut rng, &mut Tally::default());
        assert_eq!(answer, Ok(()), "{}", edge.name);
    }
}
