//! The jobs at the edges of the writer's rules: the library and the judge both give each what was written down for it, and
//! what is written is read back.

use compare::writing::{self, counts::Counts, edges};
use judge::make::Rng;

#[test]
fn each_edge_is_on_its_side() {
    let edges = edges::all();
    println!("{} edges", edges.len());
    let rng = &mut Rng::new(7);
    for edge in edges {
        let (name, job) = (&edge.name, edge.job.writing());
        let (work, out) = (edge.job.work_len, edge.job.out_len);
        let judged = judge::write_record(&job, work, out);
        assert!(edge.is_answered_by(&judged), "{name}: {:?}", judged.err());
        let answer = writing::by_library(&job, (work, out), &judged, rng);
        assert_eq!(answer, Ok(()), "{name}");
        if let Ok(record) = judged {
            let answer = writing::read_back(&job, &record, &mut Counts::default());
            assert_eq!(answer, Ok(()), "{name}");
        }
    }
}

#[test]
fn every_length_is_tried_at_the_edges() {
    let rng = &mut Rng::new(8);
    let mut counts = Counts::default();
    for edge in edges::all() {
        let answer = writing::compare(&edge.job, rng, &mut counts);
        assert_eq!(answer, Ok(()), "{}", edge.name);
    }
    assert_eq!(counts.never_reached(), []);
}
