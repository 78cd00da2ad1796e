module bemlusag.example/yarib

go 1.19
