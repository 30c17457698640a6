// A product with a bias, and several results.
func.func @product(%a: tensor<2x3xi8>, %b: tensor<3x4xi8>) -> (tensor<2x4xi32>, tensor<4x2xi32>) {
  %zero = arith.constant 0 : i32
  %bias = arith.constant dense<[1, -2, 3, 2147483647]> : tensor<4xi32>
  %e = tensor.empty() : tensor<2x4xi32>
  %f = linalg.fill ins(%zero : i32) outs(%e : tensor<2x4xi32>) -> tensor<2x4xi32>
  %p = linalg.matmul ins(%a, %b : tensor<2x3xi8>, tensor<3x4xi8>) outs(%f : tensor<2x4xi32>) -> tensor<2x4xi32>
  %s = linalg.broadcast ins(%bias : tensor<4xi32>) outs(%e : tensor<2x4xi32>) dimensions = [0]
  %r = linalg.generic {indexing_maps = [affine_map<(d0, d1) -> (d0, d1)>, affine_map<(d0, d1) -> (d0, d1)>, affine_map<(d0, d1) -> (d0, d1)>], iterator_types = ["parallel", "parallel"]} ins(%p, %s : tensor<2x4xi32>, tensor<2x4xi32>) outs(%e : tensor<2x4xi32>) {
  ^bb0(%x: i32, %y: i32, %o: i32):
    %t = arith.addi %x, %y : i32
    %c = arith.cmpi slt, %t, %zero : i32
    %m = arith.select %c, %zero, %t : i32
    linalg.yield %m : i32
  } -> tensor<2x4xi32>
  %h = tensor.empty() : tensor<4x2xi32>
  %u = linalg.transpose ins(%r : tensor<2x4xi32>) outs(%h : tensor<4x2xi32>) permutation = [1, 0]
  return %r, %u : tensor<2x4xi32>, tensor<4x2xi32>
}
