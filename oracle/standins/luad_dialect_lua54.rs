// luad-dialect-lua54: the module list over the unchanged files, which build.sh copies into target/oracle/luad-dialect-lua54.
#[path = "../../target/oracle/luad-dialect-lua54/chunk.rs"]
pub mod chunk;
#[path = "../../target/oracle/luad-dialect-lua54/header.rs"]
pub mod header;
#[path = "../../target/oracle/luad-dialect-lua54/opcodes.rs"]
pub mod opcodes;
#[path = "../../target/oracle/luad-dialect-lua54/validator.rs"]
pub mod validator;

// The copy that build.sh makes, without the one call that shortens its list. What it no longer uses is still imported there.
#[allow(unused_imports)]
#[path = "../../target/oracle/validator_untruncated.rs"]
pub mod validator_untruncated;
