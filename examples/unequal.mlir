// The inputs have unequal extents: rule V7.
#id = affine_map<(d0) -> (d0)>
func.func @add(%a: tensor<3xi32>, %b: tensor<4xi32>) -> tensor<3xi32> {
  %e = tensor.empty() : tensor<3xi32>
  %r = linalg.generic {indexing_maps = [#id, #id, #id], iterator_types = ["parallel"]} ins(%a, %b : tensor<3xi32>, tensor<4xi32>) outs(%e : tensor<3xi32>) {
  ^bb0(%x: i32, %y: i32, %z: i32):
    %s = arith.addi %x, %y : i32
    linalg.yield %s : i32
  } -> tensor<3xi32>
  return %r : tensor<3xi32>
}
