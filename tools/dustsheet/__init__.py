"""Job sheets for people: text to bytes and back, and a page that shows a room with its net."""
