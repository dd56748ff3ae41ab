package place

// Drive is where journals lie.
const Drive = "C:"
