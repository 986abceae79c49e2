"""What cells and rows hold while a microprogram is executed: by symbols, and by numbers."""
