"""Parts of hooks/svcover.py: reading SystemVerilog sources, and writing the design texts that `covd` reads."""
