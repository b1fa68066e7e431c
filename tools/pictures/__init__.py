"""Pictures of paths as SVG: drawing.picture draws one."""
