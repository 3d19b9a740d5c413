//! The names of attributes that are kept as they were, by their numbers.

/// Of a style: STYLE_EXTRA_ORDER.
pub(crate) const STYLE: &[&str] = &[
    "tts:backgroundClip", "tts:backgroundExtent", "tts:backgroundImage", "tts:backgroundOrigin",
    "tts:backgroundPosition", "tts:backgroundRepeat", "tts:border", "tts:bpd", "tts:direction", "tts:disparity",
    "tts:display", "tts:displayAlign", "tts:extent", "tts:fontKerning", "tts:fontSelectionStrategy", "tts:fontShear",
    "tts:fontVariant", "tts:ipd", "tts:letterSpacing", "tts:lineHeight", "tts:lineShear", "tts:luminanceGain",
    "tts:opacity", "tts:origin", "tts:overflow", "tts:padding", "tts:position", "tts:ruby", "tts:rubyAlign",
    "tts:rubyPosition", "tts:rubyReserve", "tts:shear", "tts:showBackground", "tts:textAlign", "tts:textCombine",
    "tts:textEmphasis", "tts:textOrientation", "tts:textOutline", "tts:textShadow", "tts:unicodeBidi",
    "tts:visibility", "tts:wrapOption", "tts:writingMode", "tts:zIndex", "itts:forcedDisplay", "itts:fillLineGap",
];

/// Of a region: REGION_ATTR_ORDER.
pub(crate) const REGION: &[&str] = &[
    "tts:backgroundClip", "tts:backgroundColor", "tts:backgroundExtent", "tts:backgroundImage", "tts:backgroundOrigin",
    "tts:backgroundPosition", "tts:backgroundRepeat", "tts:border", "tts:bpd", "tts:color", "tts:direction",
    "tts:disparity", "tts:display", "tts:displayAlign", "tts:extent", "tts:fontFamily", "tts:fontKerning",
    "tts:fontSelectionStrategy", "tts:fontShear", "tts:fontSize", "tts:fontStyle", "tts:fontVariant", "tts:fontWeight",
    "tts:ipd", "tts:letterSpacing", "tts:lineHeight", "tts:lineShear", "tts:luminanceGain", "tts:opacity",
    "tts:origin", "tts:overflow", "tts:padding", "tts:position", "tts:ruby", "tts:rubyAlign", "tts:rubyPosition",
    "tts:rubyReserve", "tts:shear", "tts:showBackground", "tts:textAlign", "tts:textCombine", "tts:textEmphasis",
    "tts:textOrientation", "tts:textOutline", "tts:textShadow", "tts:unicodeBidi", "tts:visibility", "tts:wrapOption",
    "tts:writingMode", "tts:zIndex", "style", "itts:forcedDisplay", "itts:fillLineGap",
];

/// Of a cue: P_INLINE_EXTRA_ORDER.
pub(crate) const CUE: &[&str] = &[
    "tts:backgroundClip", "tts:backgroundColor", "tts:backgroundExtent", "tts:backgroundImage", "tts:backgroundOrigin",
    "tts:backgroundPosition", "tts:backgroundRepeat", "tts:border", "tts:bpd", "tts:direction", "tts:disparity",
    "tts:display", "tts:displayAlign", "tts:extent", "tts:fontKerning", "tts:fontSelectionStrategy", "tts:fontShear",
    "tts:fontVariant", "tts:ipd", "tts:letterSpacing", "tts:lineHeight", "tts:lineShear", "tts:luminanceGain",
    "tts:opacity", "tts:origin", "tts:overflow", "tts:padding", "tts:position", "tts:ruby", "tts:rubyAlign",
    "tts:rubyPosition", "tts:rubyReserve", "tts:shear", "tts:showBackground", "tts:textAlign", "tts:textCombine",
    "tts:textEmphasis", "tts:textOrientation", "tts:textOutline", "tts:textShadow", "tts:unicodeBidi",
    "tts:visibility", "tts:wrapOption", "tts:writingMode", "tts:zIndex", "itts:forcedDisplay", "itts:fillLineGap",
];
