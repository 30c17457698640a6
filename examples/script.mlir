// Coordinates that are computed in a payload, and a script for the operation.
#rows = affine_map<(d0, d1)[s0] -> (d0 * 2 - d1 + s0 + 5)>
module {
  func.func @coordinates(%a: tensor<4x6xi32>) -> tensor<4x6xi32> {
    %e = tensor.empty() : tensor<4x6xi32>
    %r = linalg.generic {indexing_maps = [affine_map<(i, j) -> (i, j)>, affine_map<(i, j) -> (i, j)>], iterator_types = ["parallel", "parallel"]} ins(%a : tensor<4x6xi32>) outs(%e : tensor<4x6xi32>) {
    ^bb0(%x: i32, %o: i32):
      %i = linalg.index 0 : index
      %j = linalg.index 1 : index
      %k = affine.apply #rows(%i, %j)[%i]
      %s = arith.index_cast %k : index to i32
      %t = arith.addi %s, %x : i32
      linalg.yield %t : i32
    } -> tensor<4x6xi32>
    return %r : tensor<4x6xi32>
  }
  module attributes {transform.with_named_sequence} {
    transform.named_sequence @__transform_main(%m: !transform.any_op {transform.readonly}) {
      %g = transform.structured.match ops{["linalg.generic"]} in %m : (!transform.any_op) -> !transform.any_op
      %t:3 = transform.structured.tile_using_for %g [2, 3] : (!transform.any_op) -> (!transform.any_op, !transform.any_op, !transform.any_op)
      transform.structured.vectorize %t#0 vector_sizes [2, 3] : !transform.any_op
      transform.yield
    }
  }
}
