//! A value that only `&mut` reaches, so that it may be shared.
#[derive(Debug)]
pub struct SyncWrapper<T>(T);
unsafe impl<T> Sync for SyncWrapper<T> {}
impl<T> SyncWrapper<T> {
    pub fn new(value: T) -> Self {
        Self(value)
    }
    pub fn get_mut(&mut self) -> &mut T {
        &mut self.0
    }
}
