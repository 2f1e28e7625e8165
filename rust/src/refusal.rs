//! Why a call is refused.

/// A refusal, in the order of the numbers. `face` is the lowest face at fault, counted from 0. More refusals may come, and others may
/// come to carry what they found.
#[derive(Debug, Clone, Copy, PartialEq, Eq)]
#[non_exhaustive]
pub enum Refusal {
    /// A list that is no list of triangles, points, pairs or strokes.
    Shape,
    /// A count above its limit.
    Count,
    /// A vertex number not below the vertex count.
    Vertex,
    /// A number outside its range, or a corner to be written as a file that is not exactly an f32.
    Number,
    /// Scratch too short.
    Scratch,
    /// Output too short, or a cut that would write too many points.
    Room,
    /// A face that has two corners whose coordinates are equal; -0 equals 0.
    Alike { face: u32 },
    /// A span halved too often.
    Deep,
    /// Bytes that are not a sheet.
    Sheet,
    /// A face with three different corners and a normal of computed length 0.
    NoLength { face: u32 },
    /// Bytes that are not a binary STL file.
    Stl,
}

impl Refusal {
    /// The number that the calls for C answer.
    pub fn number(self) -> u32 {
        match self {
            Refusal::Shape => 1,
            Refusal::Count => 2,
            Refusal::Vertex => 3,
            Refusal::Number => 4,
            Refusal::Scratch => 5,
            Refusal::Room => 6,
            Refusal::Alike { .. } => 7,
            Refusal::Deep => 8,
            Refusal::Sheet => 9,
            Refusal::NoLength { .. } => 10,
            Refusal::Stl => 11,
        }
    }

    /// The face at fault, counted from 0, where the refusal carries one.
    pub fn face(self) -> Option<u32> {
        match self {
            Refusal::Alike { face } | Refusal::NoLength { face } => Some(face),
            _ => None,
        }
    }

    /// The refusal of a number, and of a face where it carries one: with no face to carry there is none.
    ///
    /// ```
    /// use ramikohy::Refusal;
    ///
    /// let refusal = Refusal::of(7, Some(12)).unwrap();
    /// assert_eq!((refusal.number(), refusal.face()), (7, Some(12)));
    /// assert_eq!(refusal.to_string(), "refused 7: face 12 has two corners whose coordinates are equal");
    /// assert_eq!(Refusal::of(6, Some(12)), Some(Refusal::Room));
    /// assert_eq!(Refusal::of(7, None), None);
    /// ```
    pub fn of(number: u32, face: Option<u32>) -> Option<Refusal> {
        let plain = [
            Refusal::Shape,
            Refusal::Count,
            Refusal::Vertex,
            Refusal::Number,
            Refusal::Scratch,
            Refusal::Room,
            Refusal::Deep,
            Refusal::Sheet,
            Refusal::Stl,
        ];
        let of_face = face.map(|face| [Refusal::Alike { face }, Refusal::NoLength { face }]);
        plain.into_iter().chain(of_face.into_iter().flatten()).find(|refusal| refusal.number() == number)
    }

    /// What was wrong, in words; of a refusal that carries a face, what that face has.
    fn words(self) -> &'static str {
        match self {
            Refusal::Shape => "a list is not one of triangles, points, pairs or strokes",
            Refusal::Count => "a count is above its limit",
            Refusal::Vertex => "a vertex number is not below the vertex count",
            Refusal::Number => "a number is outside its range, a mode number above 3, or a corner to be written no f32",
            Refusal::Scratch => "scratch is too short",
            Refusal::Room => "output is too short, or a cut would write over 1,048,576 points",
            Refusal::Alike { .. } => "has two corners whose coordinates are equal",
            Refusal::Deep => "a span would be halved more than 64 times",
            Refusal::Sheet => "the bytes are not a sheet",
            Refusal::NoLength { .. } => "has three different corners and a normal of computed length 0",
            Refusal::Stl => "the bytes are not a binary STL file",
        }
    }

    /// Reads a status of a call that has no place for a face: accepted, or the refusal.
    pub(crate) fn check(status: u32) -> Result<(), Refusal> {
        Refusal::check_with(status, None)
    }

    /// The same of a call that has one, with what is there.
    pub(crate) fn check_with(status: u32, face: Option<u32>) -> Result<(), Refusal> {
        if status == 0 {
            return Ok(());
        }
        Err(Refusal::of(status, face).expect("a status that the contracts permit"))
    }
}

impl std::fmt::Display for Refusal {
    fn fmt(&self, f: &mut std::fmt::Formatter<'_>) -> std::fmt::Result {
        write!(f, "refused {}: ", self.number())?;
        self.face().iter().try_for_each(|face| write!(f, "face {face} "))?;
        f.write_str(self.words())
    }
}

impl std::error::Error for Refusal {}
