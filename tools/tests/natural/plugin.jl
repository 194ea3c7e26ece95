# A plug-in that is replaced.
const plugins = Dict{Symbol, Function}()
handle(req) = 2req
plugins[:double] = handle
serve(req) = plugins[:double](req)
println(serve(21))
