// luad-core: the module list over the unchanged files, which build.sh copies into target/oracle/luad-core.
#[path = "../../target/oracle/luad-core/diagnostic.rs"]
pub mod diagnostic;
#[path = "../../target/oracle/luad-core/dialect.rs"]
pub mod dialect;
#[path = "../../target/oracle/luad-core/id.rs"]
pub mod id;
#[path = "../../target/oracle/luad-core/limits.rs"]
pub mod limits;
// One function there is called by the real derives alone.
#[allow(dead_code)]
#[path = "../../target/oracle/luad-core/model.rs"]
pub mod model;
#[path = "../../target/oracle/luad-core/provenance.rs"]
pub mod provenance;
#[path = "../../target/oracle/luad-core/reader.rs"]
pub mod reader;
pub mod scalar;

pub use dialect::DetectionResult;
