//! 000's module of updates, left behind: signatures only, so that lib.rs compiles.
use super::{DiskANN, DiskAnnError, Distance};
use std::marker::PhantomData;

#[derive(Debug, Clone, Default)]
pub struct DeleteStats {
    pub recovered_in_neighbors: usize,
    pub repair_candidates: usize,
    pub repair_edges_attempted: usize,
}
#[derive(Debug, Clone, Default)]
pub struct RoutabilityAdmissionReport {
    pub requested: usize,
    pub checked_landmarks: Vec<u32>,
    pub baseline_reachable_landmarks: usize,
    pub residual_reachable_landmarks: usize,
    pub lost_landmarks: Vec<u32>,
}
#[derive(Debug, Clone, Default)]
pub struct RoutabilityGuardConfig;
#[derive(Debug, Clone, Default)]
pub struct RoutabilityGuardStatus {
    pub enabled: bool,
    pub landmark_count: usize,
    pub landmark_pool_size: usize,
    pub beam_width: usize,
}
pub enum GuardedDeleteResult {
    Applied { stats: Vec<DeleteStats>, report: RoutabilityAdmissionReport },
    Deferred(RoutabilityAdmissionReport),
}
pub struct MmapDynamicDiskANN<T, D>(PhantomData<(T, D)>);

macro_rules! left { ($($name:ident ( $($a:ident : $t:ty),* ) -> $r:ty;)*) => { $(pub fn $name(&self, $($a: $t),*) -> $r { unimplemented!() })* } }
macro_rules! left_mut { ($($name:ident ( $($a:ident : $t:ty),* ) -> $r:ty;)*) => { $(pub fn $name(&mut self, $($a: $t),*) -> $r { unimplemented!() })* } }

#[allow(unused_variables)]
impl<T, D> MmapDynamicDiskANN<T, D>
where
    T: bytemuck::Pod + Copy + Send + Sync + 'static,
    D: Distance<T> + Send + Sync + Copy + Clone + 'static,
{
    pub fn create_from_static(_: &DiskANN<T, D>, _: usize, _: f32, _: &str) -> Result<Self, DiskAnnError> {
        unimplemented!()
    }
    left! {
        dim() -> usize;
        len() -> usize;
        max_degree() -> usize;
        distance_name() -> &str;
        medoid_id() -> u32;
        capacity() -> usize;
        routability_guard_status() -> RoutabilityGuardStatus;
        assess_delete_admission(ids: &[u32]) -> Result<RoutabilityAdmissionReport, DiskAnnError>;
        flush() -> Result<(), DiskAnnError>;
        static_layout() -> (Vec<u32>, Vec<u32>, u32, Vec<Option<u32>>);
        work_path() -> &std::path::Path;
        vector_slice(id: u32) -> &[T];
        live_neighbors(id: u32) -> Vec<u32>;
        search_with_dists(query: &[T], k: usize, beam: usize) -> Vec<(u32, f32)>;
        get_vector(idx: usize) -> Vec<T>;
    }
    left_mut! {
        enable_routability_guard(config: RoutabilityGuardConfig) -> Result<RoutabilityGuardStatus, DiskAnnError>;
        disable_routability_guard() -> ();
        insert(vector: Vec<T>, beam: usize) -> Result<u32, DiskAnnError>;
        insert_batch(vectors: Vec<Vec<T>>, beam: usize) -> Result<Vec<u32>, DiskAnnError>;
        delete_batch(ids: &[u32], beam: usize, degree: usize) -> Vec<DeleteStats>;
        delete_batch_with_admission_control(ids: &[u32], beam: usize, degree: usize) -> Result<GuardedDeleteResult, DiskAnnError>;
    }
}
