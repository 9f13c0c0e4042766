"""A control panel and a wall of displays in the browser: a client of the controller like any panel, never a part of it."""
