// Included where a build of the Rust is in scope under the name `bbqvec`: here, and in bench/ for each of its two builds.

/// A backend that answers load_bases; all else is the inner one's.
pub struct Given<E> {
    pub inner: E,
    pub bases: Vec<Basis>,
}

impl<E: VectorBackend> VectorBackend for Given<E> {
    fn put_vector(&mut self, id: ID, v: &Vector) -> Result<()> {
        self.inner.put_vector(id, v)
    }
    fn compute_similarity(&self, target: &Vector, target_id: ID) -> Result<f32> {
        self.inner.compute_similarity(target, target_id)
    }
    fn info(&self) -> BackendInfo {
        self.inner.info()
    }
    fn iter_vector_ids(&self) -> impl Iterator<Item = ID> {
        self.inner.iter_vector_ids()
    }
    fn vector_exists(&self, id: ID) -> bool {
        self.inner.vector_exists(id)
    }
    fn close(self) -> Result<()> {
        self.inner.close()
    }
    fn find_nearest(&self, target: &Vector, k: usize) -> Result<ResultSet> {
        self.inner.find_nearest(target, k)
    }
    fn load_bases(&self) -> Result<Option<Vec<Basis>>> {
        Ok(Some(self.bases.clone()))
    }
    fn load_bitmap<B: Bitmap>(&mut self, basis: usize, index: i32) -> Result<Option<B>> {
        self.inner.load_bitmap(basis, index)
    }
}
