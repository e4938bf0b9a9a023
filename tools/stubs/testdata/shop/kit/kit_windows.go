package kit

func system() string { return "windows" }
