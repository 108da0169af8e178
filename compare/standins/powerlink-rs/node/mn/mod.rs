//! Stand-in: the managing node is not compared.

pub struct ManagingNode;
pub struct MnContext;
pub struct CnInfo;
pub struct CnState;
