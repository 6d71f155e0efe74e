__kernel void affine(__global int *x, __global int *y)
{
    y[get_global_id(0)] = x[get_global_id(0)] * 3 + 7;
}
