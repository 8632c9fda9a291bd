// Stands in for helpers.rs, which draws random vectors. The oracle's backend gives the bases, so nobody calls it.
pub fn create_random_vector(_dimensions: usize) -> crate::Vector {
    unreachable!("the backend gives the bases")
}
