//! The source names this type in an alias that nothing of what is compiled here uses: it holds nothing.

use std::marker::PhantomData;

pub struct IndexMap<K, V, S>(PhantomData<(K, V, S)>);
