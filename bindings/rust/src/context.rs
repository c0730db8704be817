//! What a craft is given.

/// The fields of the engine's context; their limits are tested by each replay.
#[derive(Clone, Copy, Debug, PartialEq, Eq)]
pub struct Context {
    pub player_job_level: u32,
    pub recipe_job_level: u32,
    pub base_progress_factor: u32,
    pub base_quality_factor: u32,
    pub step_max: u8,
    pub progress_target: u32,
    pub starting_quality: u32,
    pub quality_target: u32,
    pub durability_max: u8,
    pub cp_max: u32,
    pub is_expert: bool,
    /// Bit n for action n.
    pub action_pool: u32,
    pub player_is_specialist: bool,
    pub use_manipulation: bool,
    pub use_delineation: bool,
}

/// Strict mode holds back moves that seldom serve.
#[derive(Clone, Copy, Debug, PartialEq, Eq)]
pub enum Mode {
    Plain,
    Strict,
}

impl Context {
    /// The names of the fields, by their places. A page that is refused by 1 tells the player which box it was.
    pub const FIELDS: [&'static str; 15] = [
        "player_job_level",
        "recipe_job_level",
        "base_progress_factor",
        "base_quality_factor",
        "step_max",
        "progress_target",
        "starting_quality",
        "quality_target",
        "durability_max",
        "cp_max",
        "is_expert",
        "action_pool",
        "player_is_specialist",
        "use_manipulation",
        "use_delineation",
    ];

    /// In their order, as the first line of the program `replay` has them.
    pub fn fields(&self) -> [u32; 15] {
        [
            self.player_job_level,
            self.recipe_job_level,
            self.base_progress_factor,
            self.base_quality_factor,
            u32::from(self.step_max),
            self.progress_target,
            self.starting_quality,
            self.quality_target,
            u32::from(self.durability_max),
            self.cp_max,
            u32::from(self.is_expert),
            self.action_pool,
            u32::from(self.player_is_specialist),
            u32::from(self.use_manipulation),
            u32::from(self.use_delineation),
        ]
    }
}
